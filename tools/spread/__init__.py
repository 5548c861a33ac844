"""vjobs-spread: runs many job files on many machines, by Slurm, by GNU parallel, or by processes here."""
