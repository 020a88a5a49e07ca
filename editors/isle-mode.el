;;; isle-mode.el --- Major mode for ISLE  -*- lexical-binding: t; -*-

;;; Commentary:

;; Comments, colours and indentation for ISLE, the language of Cranelift's
;; instruction selection.  emacs.el has the language server besides.

;;; Code:

(require 'lisp-mode)

(defconst isle-keywords
  '("type" "decl" "rule" "extractor" "extern" "convert" "attr" "spec" "macro" "model" "form"
    "state" "instantiate" "primitive" "enum" "struct" "let" "if-let" "if" "and" "provide"
    "require" "match" "modifies" "switch" "with" "as" "const" "default" "args" "ret" "tag" "veri")
  "The names in front of a list that are no terms.")

(defconst isle-body-heads '(rule type let spec switch instantiate)
  "The names in front of lists whose lines stand two columns to the right.")

(defconst isle-font-lock-keywords
  (let ((symbol "\\(?:\\sw\\|\\s_\\)+") (blanks "[ \t\r\n]+") (none "[ \t\r\n]*"))
    `((,(concat "(" none (regexp-opt isle-keywords 'symbols)) 1 font-lock-keyword-face)
      (,(concat "(decl" blanks "\\(\\(?:\\(?:pure\\|multi\\|partial\\|rec\\)" blanks "\\)*\\)\\(" symbol "\\)"
                none "(\\([^()]*\\))" none "\\(" symbol "\\)?")
       (1 font-lock-keyword-face) (2 font-lock-function-name-face) (3 font-lock-type-face)
       (4 font-lock-type-face nil t))
      (,(concat "(extern" blanks "\\(constructor\\|const\\|extractor\\(?:" blanks "infallible\\)?\\)" blanks)
       1 font-lock-builtin-face)
      (,(concat "(type" blanks "\\(" symbol "\\)\\(\\(?:" blanks "\\(?:extern\\|nodebug\\)\\_>\\)*\\)")
       (1 font-lock-type-face) (2 font-lock-builtin-face))
      ("\\$\\(?:\\sw\\|\\s_\\)*" . font-lock-constant-face)
      (,(concat "\\_<[^ \t\r\n$0-9-]\\(?:\\sw\\|\\s_\\)*\\.\\(?:\\sw\\|\\s_\\)+") . font-lock-constant-face)
      ("\\_<-?[0-9][0-9A-Fa-f_xXoO]*\\_>" . font-lock-constant-face)
      ("\\_<#\\(?:b[01]+\\|x[0-9A-Fa-f]+\\)\\_>" . font-lock-constant-face)
      ("\\_<\\(?:true\\|false\\|_\\)\\_>" . font-lock-constant-face)
      (,(concat "(" none "\\(" symbol "\\)") 1 font-lock-function-name-face)))
  "What `isle-mode' colours besides comments.")

(defun isle-block-comment-end (start)
  "The position behind the block comment at START, or nil if it does not end."
  (save-excursion
    (goto-char (+ start 2))
    (let ((depth 1))
      (while (and (> depth 0) (re-search-forward "(;\\|;)" nil t))
        (setq depth (+ depth (if (eq (char-before) ?\;) 1 -1))))
      (and (= depth 0) (point)))))

(defun isle-syntax-propertize (start end)
  "Mark the block comments between START and END, which may nest."
  (goto-char start)
  (let ((around (nth 8 (syntax-ppss))))
    (when (and around (eq (char-after around) ?\())
      (goto-char (or (isle-block-comment-end around) (point-max)))))
  (while (re-search-forward "(;" end t)
    (let ((open (match-beginning 0)))
      (unless (nth 4 (save-excursion (syntax-ppss open)))
        (put-text-property open (1+ open) 'syntax-table (string-to-syntax "!"))
        (let ((close (isle-block-comment-end open)))
          (when close
            (put-text-property (1- close) close 'syntax-table (string-to-syntax "!")))
          (goto-char (or close (point-max))))))))

;;;###autoload
(define-derived-mode isle-mode lisp-data-mode "ISLE"
  "Major mode for ISLE, the language of Cranelift's instruction selection."
  (modify-syntax-entry ?\" "_") ; a text has no strings
  (modify-syntax-entry ?| "_")
  (modify-syntax-entry ?# "_")
  (modify-syntax-entry ?@ ".")
  (modify-syntax-entry ?' "_")
  (modify-syntax-entry ?` "_")
  (modify-syntax-entry ?, "_")
  (modify-syntax-entry ?\\ "_")
  (modify-syntax-entry ?\[ "_")
  (modify-syntax-entry ?\] "_")
  (setq-local font-lock-defaults '(isle-font-lock-keywords nil nil nil))
  (setq-local syntax-propertize-function #'isle-syntax-propertize)
  (setq-local indent-tabs-mode nil)
  (setq-local lisp-indent-function #'isle-indent))

(defun isle-indent (indent-point state)
  "The column of the line at INDENT-POINT in the list of STATE, as `lisp-indent-function' gives it."
  (let ((head (save-excursion
                (goto-char (1+ (elt state 1)))
                (and (looking-at "\\(?:\\sw\\|\\s_\\)+") (intern (match-string 0))))))
    (if (memq head isle-body-heads)
        (+ 2 (save-excursion (goto-char (elt state 1)) (current-column)))
      (ignore indent-point))))

;;;###autoload
(add-to-list 'auto-mode-alist '("\\.isle\\'" . isle-mode))

(provide 'isle-mode)
;;; isle-mode.el ends here
