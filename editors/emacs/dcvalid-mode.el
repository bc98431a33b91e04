;;; dcvalid-mode.el --- Requirements of dcvalid: colours, and the language server by eglot  -*- lexical-binding: t -*-
(defvar dcvalid-ask "ask" "The path of ask, which is the server with the word serve.")
(defvar dcvalid-mode-syntax-table
  (let ((table (make-syntax-table)))
    (modify-syntax-entry ?/ ". 12" table)
    (modify-syntax-entry ?\n ">" table)
    (modify-syntax-entry ?_ "w" table)
    table))
;;;###autoload
(define-derived-mode dcvalid-mode prog-mode "dcvalid"
  (setq-local comment-start "// ")
  (setq-local font-lock-defaults
    '((("\\_<\\(var\\|define\\|prop\\|as\\|infer\\|const\\|use\\|ex\\|all\\)\\_>" . font-lock-keyword-face)
       ("\\_<\\(slen\\|scount\\|sdur\\)\\_>" . font-lock-builtin-face)
       ("\\_<\\(true\\|false\\|pt\\|ext\\)\\_>" . font-lock-constant-face)))))
;;;###autoload
(add-to-list 'auto-mode-alist '("\\.dc\\'" . dcvalid-mode))
(with-eval-after-load 'eglot
  (add-to-list 'eglot-server-programs (cons 'dcvalid-mode (lambda (&rest _) (list dcvalid-ask "serve")))))
(provide 'dcvalid-mode)
