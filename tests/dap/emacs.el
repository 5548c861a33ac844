;;; emacs.el --- drives Emacs through a job  -*- lexical-binding: t -*-

;; It prints an object of JSON on a line for each look: what Emacs shows there.  Arguments: a command, and its own.

(require 'cl-lib)
(require 'json)
(require 'package)
(package-initialize)
(setq make-backup-files nil create-lockfiles nil inhibit-message t)
(require 'vcode)

(defvar seconds 20 "How long something may take.")

(defun say (&rest members)
  "Print MEMBERS, a plist, as an object."
  (princ (concat (json-encode members) "\n")))

(defun until (what test)
  "Take what comes from the program until TEST holds.  WHAT is waited for."
  (let ((end (+ (float-time) seconds)))
    (while (not (funcall test))
      (when (> (float-time) end) (error "%s doesn't come" what))
      (accept-process-output nil 0.01))))

;;;; Colours

(defun face-at-word (word)
  "The face of the first place of WORD after point, to which point goes."
  (search-forward word)
  (let ((face (get-text-property (match-beginning 0) 'face)))
    (if (listp face) (format "%s" (car face)) (format "%s" face))))

(defun colours (file &rest words)
  "Say the faces of WORDS in FILE, which come one after another."
  (find-file file)
  (font-lock-ensure)
  (goto-char (point-min))
  (say :mode (format "%s" major-mode) :faces (vconcat (mapcar #'face-at-word words))))

;;;; A job

(defun has-dap ()
  "Say whether dap-mode can be loaded."
  (say :dap (and (require 'dap-mode nil t) (require 'dap-ui nil t) t)))

(defun session () (dap--cur-session))

(defun frame () (dap--debug-session-active-frame (session)))

(defun labels (reference)
  "What dap-mode shows of the variables of REFERENCE."
  (vconcat (mapcar (lambda (it) (substring-no-properties (plist-get it :label)))
                   (dap-ui-render-variables (session) reference nil))))

(defun scope (name)
  "The labels of the variables in the scope of NAME."
  (let ((found (cl-find name (gethash "scopes" (dap-request (session) "scopes" :frameId (gethash "id" (frame))))
                        :key (lambda (it) (gethash "name" it)) :test #'equal)))
    (labels (gethash "variablesReference" found))))

(defun look (name)
  "Say what is shown after NAME."
  (let ((frames (gethash 1 (dap--debug-session-thread-stack-frames (session)))))
    (say :after name
         :line (with-current-buffer (find-buffer-visiting (gethash "path" (gethash "source" (frame))))
                 (line-number-at-pos))
         :reason (gethash 1 (dap--debug-session-thread-states (session)))
         :calls (vconcat (mapcar (lambda (it) (list (gethash "name" it) (gethash "line" it))) frames))
         :stack (scope "Stack") :entries (scope "Entries") :run (scope "Run"))))

(defvar arrivals 0 "How often a frame was shown.")

(defun after (name move)
  "Make a MOVE, wait until a frame is shown, and say what is shown after NAME."
  (let ((before arrivals))
    (funcall move)
    (until name (lambda () (and (> arrivals before) (frame)))))
  (look name))

(defun breakpoints-shown ()
  "The faces of the breakpoints in this buffer."
  (vconcat (mapcar (lambda (it) (format "%s" (overlay-get it 'face))) dap-ui--breakpoint-overlays)))

(defun job (program file job line)
  "Run a JOB of FILE by PROGRAM to LINE and to its end, and two steps back."
  (setq vcode-program program)
  (vcode--ready)
  (add-hook 'dap-stack-frame-changed-hook (lambda (_) (cl-incf arrivals)))
  (find-file file)
  (goto-char (point-min))
  (forward-line (1- (string-to-number line)))
  (say :job (vcode-job-at-point))
  (set-window-buffer (selected-window) (current-buffer))
  (dotimes (_ 3)
    (vcode-click (list 'mouse-1 (list (selected-window) 'left-fringe '(0 . 0) 0 nil (point)))))
  (after "begin" (lambda () (vcode-debug (string-to-number job))))
  (say :breakpoints (with-current-buffer (find-buffer-visiting file) (breakpoints-shown)))
  (after "continue" #'vcode-continue)
  (after "the end" #'vcode-continue)
  (say :output (with-current-buffer (dap--debug-session-output-buffer (session)) (buffer-string)))
  (after "a step back" #'vcode-step-back)
  (after "a second step back" #'vcode-step-back)
  (after "a state by its number" (lambda () (vcode-go-to-state 2)))
  (say :values (vcode-evaluate "1:0-1" "hover"))
  (after "all the way back" #'vcode-reverse-continue)
  (vcode-stops '("makes>2" "nowhere"))
  (dap-disconnect (session))
  (until "the end of the program" (lambda () (not (process-live-p (dap--debug-session-proc (session))))))
  (say :exit (process-exit-status (dap--debug-session-proc (session)))))

(condition-case failed
    (let ((words command-line-args-left))
      (setq command-line-args-left nil)
      (apply (intern (car words)) (cdr words)))
  (error (say :failed (error-message-string failed)) (kill-emacs 1)))

;;; emacs.el ends here
