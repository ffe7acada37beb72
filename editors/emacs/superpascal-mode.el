;;; superpascal-mode.el --- SuperPascal in Emacs, with errors while one types -*- lexical-binding: t -*-

;;; Commentary:
;; Colours and indentation come from pascal-mode; errors, formatting, names and the rest from the language server by
;; eglot (part of Emacs 29; in 28 the package eglot).

;;; Code:
(require 'pascal)

(defgroup superpascal nil "SuperPascal." :group 'languages)

(defcustom superpascal-server "superpascal-language-server"
  "The command of the language server."
  :type 'string :group 'superpascal)

(defconst superpascal-words
  '("parallel" "forall" "assume" "send" "receive" "open" "true" "false" "maxint")
  "Words that Pascal lacks, and standard names.")

;;;###autoload
(define-derived-mode superpascal-mode pascal-mode "SuperPascal"
  "Major mode for programs in SuperPascal."
  (setq-local case-fold-search t)
  (setq-local indent-tabs-mode nil)
  (setq-local pascal-indent-level 2)
  (setq-local pascal-auto-newline nil)
  (font-lock-add-keywords nil `((,(regexp-opt superpascal-words 'symbols) . font-lock-keyword-face)))
  (when (and (fboundp 'eglot-ensure) (executable-find superpascal-server))
    (eglot-ensure)))

;;;###autoload
(add-to-list 'auto-mode-alist '("\\.sp\\'" . superpascal-mode))

(with-eval-after-load 'eglot
  (add-to-list 'eglot-server-programs (cons 'superpascal-mode (lambda (&rest _) (list superpascal-server)))))

(provide 'superpascal-mode)
;;; superpascal-mode.el ends here
