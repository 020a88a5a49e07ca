;; Drives eglot over isle-lsp, by its own commands, and writes a line of JSON for what comes of each. Places are lines and characters,
;; from 0 on. The configuration is emacs.el.
(require 'eglot)
(require 'json)
(setq eglot-sync-connect 20 make-backup-files nil)

(defun tell (name value) (princ (concat (json-encode `((name . ,name) (value . ,value))) "\n")))
(defun wait (test)
  (with-timeout (20) (while (not (funcall test)) (accept-process-output nil 0.02))))
(defun lines () (vconcat (split-string (buffer-substring-no-properties (point-min) (point-max)) "\n" t)))
(defun place () (vector (1- (line-number-at-pos)) (- (point) (line-beginning-position))))
(defun go-to-use () (goto-char (point-min)) (search-forward "twice w") (backward-char 4))

;; No command loop runs here, so what waits for the end of a command is called.
(find-file "a.isle")
(run-hooks 'post-command-hook)
(wait #'flymake-diagnostics)
(tell "diagnostics"
      (vconcat (mapcar (lambda (it)
                         (goto-char (flymake-diagnostic-beg it))
                         (vector (1- (line-number-at-pos))
                                 (buffer-substring-no-properties (flymake-diagnostic-beg it) (flymake-diagnostic-end it))
                                 (replace-regexp-in-string "^isle.*?: " "" (flymake-diagnostic-text it))))
                       (flymake-diagnostics))))

(call-interactively (key-binding (kbd "C-c C-f")))
(save-buffer)
(tell "formatted" (with-temp-buffer (insert-file-contents "a.isle") (lines)))

(go-to-use)
(xref-find-definitions (xref-backend-identifier-at-point 'eglot))
(tell "definition" (place))

(goto-char (point-min))
(search-forward "y (f")
(backward-char 1)
;; What `eglot-find-implementation' shows.
(let ((found (eglot--lsp-xrefs-for-method :textDocument/implementation)))
  (goto-char (xref-location-marker (xref-item-location (car found)))))
(tell "implementation" (place))

(go-to-use)
(tell "references"
      (vconcat (mapcar (lambda (it)
                         (goto-char (xref-location-marker (xref-item-location it)))
                         (place))
                       (xref-backend-references 'eglot nil))))

(go-to-use)
(let (shown)
  (eglot-hover-eldoc-function (lambda (text &rest _) (setq shown text)))
  (wait (lambda () shown))
  (tell "hover" (and shown (string-match "(decl.*" shown) (substring-no-properties (match-string 0 shown)))))

(goto-char (point-min))
(search-forward "twice w")
(backward-char 1)
(let (shown)
  (eglot-signature-eldoc-function (lambda (text &rest _) (setq shown text)))
  (wait (lambda () shown))
  (tell "signature" (and shown (string-match "(decl.*" shown) (substring-no-properties (match-string 0 shown)))))

(go-to-use)
(eglot-rename "double")
(tell "renamed" (lines))

;; Renames a term where it is declared, and tells the lines of both files then.
(fset 'y-or-n-p #'always)
(defun rename-in-both (name old new)
  ;; Changes are else sent once nothing is typed for a while.
  (eglot--signal-textDocument/didChange)
  (goto-char (point-min))
  (search-forward (concat "decl " old " "))
  (backward-char 2)
  (eglot-rename new)
  (tell name (vector (lines) (with-current-buffer (find-buffer-visiting "b.isle") (lines))))
  (save-some-buffers t))
(defun write-other (&rest lines)
  (write-region (mapconcat (lambda (it) (concat it "\n")) lines "") nil "b.isle" nil 'quiet))

;; A file that comes behind the editor, and is then written anew while it is closed.
(write-other "(decl g (T) T)" "(rule (g x) (f x))")
(rename-in-both "renamed_in_both" "f" "h")
(kill-buffer (find-buffer-visiting "b.isle"))
(write-other "; moved" "; down" "(decl g (T) T)" "(rule (g x) (h x))")
(rename-in-both "renamed_where_it_is_now" "h" "k")
(tell "written" (with-temp-buffer (insert-file-contents "b.isle") (lines)))

;; The type of a variable, and a use of an extractor that is expanded.
(erase-buffer)
(insert "(type T (primitive T))\n(decl f (T) T)\n(decl both (T T) T)\n(extern extractor both both)\n(decl pair (T T) T)\n"
        "(extractor (pair a b) (both b a))\n(rule (f (pair x _)) x)\n")
(eglot--signal-textDocument/didChange)
(goto-char (point-min))
(search-forward "pair x")
(backward-char 1)
(let (shown)
  (eglot-hover-eldoc-function (lambda (text &rest _) (setq shown text)))
  (wait (lambda () shown))
  (tell "typed" (and shown (string-match "x : .*" shown) (substring-no-properties (match-string 0 shown)))))
(backward-char 3)
(eglot-code-actions (point) (point) "refactor.inline" t)
(tell "expanded" (aref (lines) 6))

;; It fails where no answer comes.
(eglot-shutdown (eglot-current-server))
(tell "stopped" t)
