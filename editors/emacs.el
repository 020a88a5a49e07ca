(require 'isle-mode)
(with-eval-after-load 'eglot
  (add-to-list 'eglot-server-programs '(isle-mode . ("isle-lsp"))))
(add-hook 'isle-mode-hook #'eglot-ensure)
(define-key isle-mode-map (kbd "C-c C-f") #'eglot-format)
