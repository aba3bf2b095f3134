;;; pals.el --- Designs of pals in Emacs  -*- lexical-binding: t; -*-

;; Load this file: (load "/path/to/tools/editors/emacs/pals.el"). Emacs 28 needs the package eglot; Emacs 29 has it.
;; `pals-command' has the words that start the language server.

(defvar pals-command '("pals" "language_server")
  "The words that start the language server.")

(define-derived-mode aadl-mode prog-mode "AADL"
  "Major mode for designs (AADL)."
  (modify-syntax-entry ?_ "w")
  (modify-syntax-entry ?- ". 12")
  (modify-syntax-entry ?\n ">")
  (setq-local comment-start "-- ")
  (setq-local comment-start-skip "--+[ \t]*"))

(add-to-list 'auto-mode-alist '("\\.aadl\\'" . aadl-mode))

(with-eval-after-load 'eglot
  (add-to-list 'eglot-server-programs `(aadl-mode . ,(lambda (&rest _) pals-command))))

(when (require 'eglot nil t)
  (add-hook 'aadl-mode-hook #'eglot-ensure))

(provide 'pals)
;;; pals.el ends here
