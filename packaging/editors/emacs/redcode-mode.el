;;; redcode-mode.el --- Redcode, the language of Core War  -*- lexical-binding: t -*-

;;; Commentary:

;; Colours Redcode as the Core War kit reads it, in Emacs 28 and later, and names its language server to eglot.

;;; Code:

(defvar redcode-font-lock-keywords
  (let ((words (lambda (names) (regexp-opt (split-string names "|") 'words))))
    `((,(concat "\\.[ \t]*" (funcall words "@MODIFIERS@")) 1 font-lock-type-face)
      (,(funcall words "@OPCODES@") . font-lock-keyword-face)
      (,(funcall words "@DIRECTIVES@") . font-lock-preprocessor-face)
      ("^[ \t]*;assert\\>" 0 font-lock-preprocessor-face t)
      ("\\<[0-9]+\\>" . font-lock-constant-face)
      ((lambda (limit)
         (let ((case-fold-search nil))
           (re-search-forward ,(funcall words "@PREDEFINED@") limit t)))
       . font-lock-builtin-face)))
  "What is coloured in Redcode besides comments.")

(defvar redcode-mode-syntax-table
  (let ((table (make-syntax-table)))
    (modify-syntax-entry ?\; "<" table)
    (modify-syntax-entry ?\n ">" table)
    (modify-syntax-entry ?_ "w" table)
    (modify-syntax-entry ?\" "." table)
    table))

(defvar eglot-server-programs)
(defvar eglot-send-changes-idle-time)

;;;###autoload
(define-derived-mode redcode-mode prog-mode "Redcode"
  "Major mode for Redcode."
  ;; The server itself waits until nothing is typed.
  (setq-local eglot-send-changes-idle-time 0.01)
  (setq-local comment-start ";"
              comment-start-skip ";+[ \t]*"
              font-lock-defaults '(redcode-font-lock-keywords nil t)
              ;; An assert is a comment that is read.
              syntax-propertize-function (syntax-propertize-rules ("^[ \t]*\\(;\\)assert\\>" (1 ".")))))

;;;###autoload
(add-to-list 'auto-mode-alist '("\\.red\\(code\\)?\\'" . redcode-mode))

(with-eval-after-load 'eglot
  (add-to-list 'eglot-server-programs '(redcode-mode . ("corewar" "lsp"))))

(provide 'redcode-mode)
;;; redcode-mode.el ends here
