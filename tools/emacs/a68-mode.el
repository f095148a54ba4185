;;; a68-mode.el --- ALGOL 68 with words in capitals, as a68 reads it  -*- lexical-binding: t -*-

;; (add-to-list 'load-path ".../tools/emacs") and (require 'a68-mode).
;; M-x compile in a buffer runs a68 lint; its lines are read as those of other compilers.

;;; Code:

(defconst a68-mode-words
  (eval-when-compile
    (list
     (cons (regexp-opt '("BEGIN" "END" "IF" "THEN" "ELIF" "ELSE" "FI" "CASE" "IN" "OUSE" "OUT" "ESAC" "FOR" "FROM" "BY" "TO"
                         "WHILE" "DO" "OD" "PAR" "AT" "OF" "MODE" "PRIO" "OP" "PROC" "LOC" "HEAP" "GO" "GOTO" "EXIT") 'symbols)
           'font-lock-keyword-face)
     (cons (regexp-opt '("LONG" "INT" "BOOL" "CHAR" "BITS" "SEMA" "STRING" "VOID" "REF" "FLEX" "STRUCT" "UNION") 'symbols)
           'font-lock-type-face)
     (cons (regexp-opt '("TRUE" "FALSE" "NIL" "SKIP") 'symbols) 'font-lock-constant-face)
     (cons (regexp-opt '("REAL" "COMPL" "BYTES" "FORMAT" "SHORT" "EMPTY" "GO" "GOTO" "EXIT") 'symbols)
           'font-lock-warning-face)
     (cons (regexp-opt '("NOT" "ABS" "SIGN" "ODD" "REPR" "BIN" "LENG" "SHORTEN" "LEVEL" "UP" "DOWN" "OVER" "MOD" "ELEM" "AND" "OR" "SHL" "SHR"
                         "LWB" "UPB" "EQ" "NE" "LT" "LE" "GE" "GT" "IS" "ISNT" "PLUSAB" "MINUSAB" "TIMESAB" "OVERAB" "MODAB"
                         "PLUSTO") 'symbols)
           'font-lock-builtin-face)))
  "What is shown in which face.")

(defvar a68-mode-syntax-table
  (let ((table (make-syntax-table)))
    (modify-syntax-entry ?# "!" table)
    (modify-syntax-entry ?\" "\"" table)
    (modify-syntax-entry ?\\ "." table)
    table)
  "Comments between two # and texts between two quotes.")

;;;###autoload
(define-derived-mode a68-mode prog-mode "ALGOL 68"
  "Major mode for texts of ALGOL 68."
  (setq-local font-lock-defaults '(a68-mode-words))
  (setq-local comment-start "# ")
  (setq-local comment-end " #")
  (when buffer-file-name
    (setq-local compile-command (concat "a68 lint " (shell-quote-argument buffer-file-name)))))

;;;###autoload
(add-to-list 'auto-mode-alist '("\\.a68\\'" . a68-mode))

(provide 'a68-mode)
;;; a68-mode.el ends here
