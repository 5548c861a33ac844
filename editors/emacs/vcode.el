;;; vcode.el --- VCODE: colours, and jobs that run forward and back  -*- lexical-binding: t -*-

;; Package-Requires: ((emacs "27.1"))

;;; Commentary:

;; `vcode-mode' colours batches of VCODE.  If dap-mode is installed, `vcode-debug' runs a job of the batch in vjobs-dap:
;; it stops at breakpoints, and goes back as well as forward.
;;
;;   (add-to-list 'load-path "/path/of/editors/emacs")
;;   (require 'vcode)
;;
;; A click in the left margin or fringe of a line sets a breakpoint, or removes it, and so does C-c C-b.  `vcode-stops'
;; sets breakpoints at calls of functions, and where more than a number of words are held.

;;; Code:

(require 'cl-lib)

(defgroup vcode nil
  "VCODE, and jobs of it."
  :group 'languages)

(defcustom vcode-program "vjobs-dap"
  "The program that runs jobs for an editor."
  :type 'string)

(defcustom vcode-memory 256
  "The megabytes for states that are kept, so that going back takes no time."
  :type 'integer)

;;;; Colours

(defconst vcode-instructions
  '("CONST" "COPY" "POP" "CPOP" "CALL" "I_TO_B" "B_TO_I" "INDEX" "MAKE_SEGDES" "LENGTHS")
  "The first words of instructions that needn't stand before a kind.")

(defconst vcode-control '("FUNC" "RET" "IF" "ELSE" "ENDIF")
  "The words that say where a job goes on.")

(defvar vcode-mode-syntax-table
  (let ((table (make-syntax-table)))
    ;; All visible characters are of words, but for parentheses and braces.
    (dolist (char (number-sequence ?! ?~))
      (unless (or (<= ?0 char ?9) (<= ?A char ?Z) (<= ?a char ?z))
        (modify-syntax-entry char "_" table)))
    (modify-syntax-entry ?\( "()" table)
    (modify-syntax-entry ?\) ")(" table)
    (modify-syntax-entry ?{ "<" table)
    (modify-syntax-entry ?} ">" table)
    table)
  "What the characters of VCODE are.")

(defun vcode--words (words)
  "A pattern for any of WORDS as a whole word."
  (concat "\\_<" (regexp-opt words t) "\\_>"))

(defconst vcode-font-lock-keywords
  `(("^[ \t\r]*\\(JOB\\)[ \t]+\\([^ \t\n]+\\)\\(\\(?:[ \t]+[0-9]+\\)\\{4\\}\\)[ \t\r]*$"
     (1 font-lock-preprocessor-face) (2 font-lock-function-name-face) (3 font-lock-constant-face))
    ("^[ \t\r]*\\(SIGNATURES\\|CODE\\|END\\|BATCH[ \t]+2\\)[ \t\r]*$" 1 font-lock-preprocessor-face)
    ("^[ \t\r]*\\([^] \t\n(){}[]+\\)[ \t]*([A-Z \t]*)[ \t]*->" 1 font-lock-function-name-face)
    ("\\_<\\(FUNC\\)[ \t\r\n]+\\([^ \t\r\n(){}]+\\)" (1 font-lock-keyword-face) (2 font-lock-function-name-face))
    ("\\_<\\(CALL\\)[ \t\r\n]+\\([^ \t\r\n(){}]+\\)" (1 font-lock-builtin-face) (2 font-lock-function-name-face))
    (,(vcode--words vcode-control) . font-lock-keyword-face)
    (,(vcode--words vcode-instructions) . font-lock-builtin-face)
    (,(vcode--words '("INT" "BOOL" "SEGDES")) . font-lock-type-face)
    ("\\_<\\([^ \t\r\n(){}]+\\)[ \t\r]+\\(?:INT\\|BOOL\\)\\_>" 1 font-lock-builtin-face)
    (,(vcode--words '("T" "F")) . font-lock-constant-face)
    ("\\_<-?[0-9]+\\_>" . font-lock-constant-face))
  "The colours of VCODE.  Those of comments come from the syntax table.")

(defvar vcode-mode-map
  (let ((map (make-sparse-keymap)))
    (define-key map (kbd "C-c C-d") #'vcode-debug)
    (define-key map (kbd "C-c C-b") #'vcode-toggle-breakpoint)
    (define-key map [left-margin mouse-1] #'vcode-click)
    (define-key map [left-fringe mouse-1] #'vcode-click)
    (define-key map (kbd "C-c C-f") #'vcode-stops)
    (define-key map (kbd "C-c C-i") #'vcode-step-in)
    (define-key map (kbd "C-c C-n") #'vcode-next)
    (define-key map (kbd "C-c C-u") #'vcode-step-out)
    (define-key map (kbd "C-c C-c") #'vcode-continue)
    (define-key map (kbd "C-c C-p") #'vcode-step-back)
    (define-key map (kbd "C-c C-r") #'vcode-reverse-continue)
    (define-key map (kbd "C-c C-g") #'vcode-go-to-state)
    (define-key map (kbd "C-c C-v") #'vcode-show-values)
    map)
  "The keys of `vcode-mode'.")

;;;###autoload
(define-derived-mode vcode-mode prog-mode "VCODE"
  "A mode for batches of VCODE.

\\{vcode-mode-map}"
  (setq-local comment-start "{ ")
  (setq-local comment-end " }")
  (setq-local comment-start-skip "{[ \t]*")
  (setq-local comment-end-skip "[ \t]*}")
  (setq-local imenu-generic-expression
              '(("Jobs" "^[ \t\r]*JOB[ \t]+\\([^ \t\n]+\\)" 1) (nil "^[ \t\r]*FUNC[ \t]+\\([^ \t\n]+\\)" 1)))
  (setq-local font-lock-defaults '(vcode-font-lock-keywords)))

;;;###autoload
(add-to-list 'auto-mode-alist '("\\.vcode\\'" . vcode-mode))

;;;; Jobs

(declare-function dap-mode "dap-mode")
(declare-function dap-ui-mode "dap-ui")
(declare-function dap-debug "dap-mode")
(declare-function dap-breakpoint-toggle "dap-mode")
(declare-function dap-register-debug-provider "dap-mode")
(declare-function dap-register-debug-template "dap-mode")
(declare-function dap-request "dap-mode")
(declare-function dap--step "dap-mode")
(declare-function dap--cur-active-session-or-die "dap-mode")
(declare-function dap--debug-session-active-frame "dap-mode")
(declare-function dap--send-message "dap-mode")
(declare-function dap--make-request "dap-mode")
(declare-function dap--set-breakpoints-in-file "dap-mode")
(declare-function dap--get-breakpoints "dap-mode")
(defvar dap-output-buffer-filter)

(defun vcode--ready ()
  "Have dap-mode loaded, with its signs in the margin."
  (unless (require 'dap-mode nil t)
    (user-error "The package dap-mode isn't installed"))
  (require 'dap-ui)
  (dap-mode 1)
  (dap-ui-mode 1))

(defun vcode-job-at-point ()
  "The number of the job in which point is, counted from 1."
  (save-excursion
    (save-restriction
      (widen)
      (end-of-line)
      (max 1 (how-many "^[ \t\r]*JOB[ \t]+[^ \t\n]+\\(?:[ \t]+[0-9]+\\)\\{4\\}[ \t\r]*$" (point-min) (point))))))

(defun vcode--populate (arguments)
  "ARGUMENTS of a session with what they leave out: the batch and the job at point."
  (let ((found (copy-sequence arguments)))
    (cl-loop for (key value) on (list :type "vjobs" :request "launch" :name "VCODE"
                                      :dap-server-path (list vcode-program)
                                      :batch buffer-file-name :job (vcode-job-at-point) :memory vcode-memory)
             by #'cddr
             unless (plist-get found key) do (setq found (plist-put found key value)))
    found))

(with-eval-after-load 'dap-mode
  (dap-register-debug-provider "vjobs" #'vcode--populate)
  (dap-register-debug-template "VCODE: the job at point"
                               (list :type "vjobs" :request "launch" :name "VCODE"))
  ;; The text of an end is for the console.
  (when (listp dap-output-buffer-filter)
    (cl-pushnew "console" dap-output-buffer-filter :test #'equal)))

;;;###autoload
(defun vcode-debug (job)
  "Run a JOB of this batch from its first state on.
It is the job at point, unless a prefix argument gives its number."
  (interactive (list (if current-prefix-arg (prefix-numeric-value current-prefix-arg) (vcode-job-at-point))))
  (vcode--ready)
  (save-buffer)
  (dap-debug (vcode--populate (list :job job))))

(defun vcode-toggle-breakpoint ()
  "Set a breakpoint on this line, or remove it."
  (interactive)
  (vcode--ready)
  (dap-breakpoint-toggle))

(defun vcode-click (event)
  "Set a breakpoint on the line of EVENT, a click beside it, or remove it."
  (interactive "e")
  (let ((place (event-end event)))
    (with-selected-window (posn-window place)
      (save-excursion
        (goto-char (posn-point place))
        (vcode-toggle-breakpoint)))))

(defun vcode--move (command)
  "Send COMMAND, which moves the job of the current session."
  (dap--step command (dap--cur-active-session-or-die)))

(defmacro vcode--define-move (name command text)
  "Define the command NAME, which sends COMMAND.  TEXT is its documentation."
  `(defun ,name () ,text (interactive) (vcode--move ,command)))

(vcode--define-move vcode-step-in "stepIn" "Execute one instruction.")
(vcode--define-move vcode-next "next" "Execute one instruction, with all of the call that it makes.")
(vcode--define-move vcode-step-out "stepOut" "Go on until this call has returned.")
(vcode--define-move vcode-continue "continue" "Go on to a breakpoint, or to the end.")
(vcode--define-move vcode-step-back "stepBack" "Go back by one instruction.")
(vcode--define-move vcode-reverse-continue "reverseContinue" "Go back to a breakpoint, or to the first state.")

(defun vcode-evaluate (expression context)
  "What the current session answers to EXPRESSION in CONTEXT, `hover' or `repl'."
  (let* ((session (dap--cur-active-session-or-die))
         (frame (dap--debug-session-active-frame session)))
    (gethash "result" (dap-request session "evaluate" :expression expression :context context
                                   :frameId (if frame (gethash "id" frame) 1)))))

(defun vcode-go-to-state (number)
  "Go to the state of this NUMBER, forward or back.
It is the state after as many instructions."
  (interactive "nState: ")
  (vcode-evaluate (format "at %d" number) "repl"))

(defun vcode-show-values (expression)
  "Show values of an entry.
EXPRESSION is its depth, 0 at the top, and perhaps places: `0:5' or `0:5-9'."
  (interactive "sEntry (D, D:A or D:A-B): ")
  (message "%s" (vcode-evaluate expression "hover")))

(defun vcode-stops (names)
  "Stop at calls of functions of these NAMES.
Names like `words>100', `entries>10' and `makes>1000' stop where more words are
held, more entries are there, or the next instruction makes more words."
  (interactive (list (split-string (read-string "Functions, words>N, entries>N or makes>N: "))))
  (let ((answers (gethash "breakpoints"
                          (dap-request (dap--cur-active-session-or-die) "setFunctionBreakpoints" :breakpoints
                                       (vconcat (mapcar (lambda (name) (list :name name)) names))))))
    (cl-loop for name in names for answer in answers
             unless (gethash "verified" answer) do (message "%s: %s" name (gethash "message" answer)))))

(provide 'vcode)

;;; vcode.el ends here
