;;; stratego-mode.el --- Modules of Stratego for stratbench  -*- lexical-binding: t; -*-

;; Version: 1.3.0
;; Package-Requires: ((emacs "26.1"))

;;; Commentary:

;; Colours, comments and indentation by the language server, which Eglot starts by `M-x eglot'.

;;; Code:

(defvar stratego-mode-syntax-table
  (let ((table (make-syntax-table)))
    (modify-syntax-entry ?/ ". 124b" table)
    (modify-syntax-entry ?* ". 23" table)
    (modify-syntax-entry ?\n "> b" table)
    (modify-syntax-entry ?\" "\"" table)
    (modify-syntax-entry ?- "_" table)
    (modify-syntax-entry ?' "_" table)
    (modify-syntax-entry ?\\ "." table)
    table)
  "Syntax table of `stratego-mode'.")

(defconst stratego-mode-keywords
  `((,(regexp-opt '("module" "signature" "sorts" "constructors" "rules" "strategies") 'symbols) . font-lock-keyword-face)
    (,(regexp-opt '("id" "fail" "all" "one" "some" "not" "where" "test" "if" "then" "else" "end" "rec" "prim") 'symbols)
     . font-lock-builtin-face)
    ("^[ \t]*\\([A-Za-z_][A-Za-z0-9_'-]*\\)\\(?:([^)\n]*)\\)?[ \t]*[=:]" 1 font-lock-function-name-face)
    ("\\_<[A-Z][A-Za-z0-9_'-]*\\_>" . font-lock-type-face))
  "What `stratego-mode' colours.")

;;;###autoload
(define-derived-mode stratego-mode prog-mode "Stratego"
  "Major mode for modules of Stratego."
  (setq-local comment-start "// ")
  (setq-local comment-end "")
  (setq-local comment-start-skip "//+[ \t]*\\|/\\*+[ \t]*")
  (setq-local indent-tabs-mode nil)
  (setq-local font-lock-defaults '(stratego-mode-keywords)))

;;;###autoload
(add-to-list 'auto-mode-alist '("\\.str\\'" . stratego-mode))

(with-eval-after-load 'eglot
  (add-to-list 'eglot-server-programs '(stratego-mode . ("python3" "-m" "stratbench.server"))))

(provide 'stratego-mode)
;;; stratego-mode.el ends here
