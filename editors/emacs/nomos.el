;;; nomos.el --- contracts and scripts of Nomos, with nomos-lsp by eglot  -*- lexical-binding: t -*-

;;; Commentary:
;; A mode for contracts and one for scripts, and the server that eglot starts for both.

;;; Code:
(require 'eglot)

(define-derived-mode nomos-mode prog-mode "Nomos"
  "Major mode for contracts of Nomos."
  (setq-local comment-start "// "))

(define-derived-mode nomos-script-mode nomos-mode "Nomos script"
  "Major mode for scripts of Nomos.")

(add-to-list 'auto-mode-alist '("\\.nomos\\'" . nomos-mode))
(add-to-list 'auto-mode-alist '("\\.script\\'" . nomos-script-mode))
(add-to-list 'eglot-server-programs '((nomos-mode nomos-script-mode) . ("nomos-lsp")))
(add-hook 'nomos-mode-hook #'eglot-ensure)

(provide 'nomos)
;;; nomos.el ends here
