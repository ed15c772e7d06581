;;; xduce-mode.el --- XDuce's programs and documents  -*- lexical-binding: t; -*-

;; Version: 0.2.0
;; Package-Requires: ((emacs "27.1"))
;; Keywords: languages

;;; Commentary:

;; Colours, comments, indentation and the language server of XDuce: programs end in .x, documents in
;; .xd.  In the init file:
;;
;;   (require 'xduce-mode)
;;   (add-hook 'xduce-mode-hook #'eglot-ensure)
;;
;; Eglot is a part of Emacs from 29 on, and Debian's package elpa-eglot before.

;;; Code:

(defgroup xduce nil
  "Tree documents under regular expression types."
  :group 'languages)

(defcustom xduce-server
  ;; That of the repository which this file belongs to, or else the installed command.
  (let ((beside (expand-file-name "../../tools/language-server"
                                  (file-name-directory (or load-file-name buffer-file-name "/")))))
    (list (if (file-executable-p beside) beside "xduce-language-server")))
  "The words that start XDuce's language server."
  :type '(repeat string))

(defvar eglot-server-programs)
(with-eval-after-load 'eglot
  (add-to-list 'eglot-server-programs '(xduce-mode . (lambda (&rest _) xduce-server))))

(defvar xduce-mode-syntax-table
  (let ((table (make-syntax-table)))
    (modify-syntax-entry ?_ "_" table)
    (modify-syntax-entry ?\" "\"" table)
    (modify-syntax-entry ?\\ "\\" table)
    ;; Comments don't nest: the first *) ends one.
    (modify-syntax-entry ?\( "()1" table)
    (modify-syntax-entry ?* ". 23" table)
    (modify-syntax-entry ?\) ")(4" table)
    (dolist (sign (string-to-list "|+?=:,^~-><"))
      (modify-syntax-entry sign "." table))
    table)
  "What the characters of XDuce's programs and documents are.")

(defconst xduce--name "[A-Za-z_][A-Za-z0-9_]*")

(defconst xduce--font-lock
  `((,(concat "\\_<\\(" xduce--name "\\)\\[") 1 font-lock-builtin-face)
    ("\\(~\\)\\[" 1 font-lock-builtin-face)
    ;; A list of labels: (a|b)[
    (,(concat "([ \t\n]*\\(" xduce--name "\\(?:[ \t\n]*|[ \t\n]*" xduce--name "\\)*\\)"
              "[ \t\n]*)[ \t\n]*\\[")
     1 font-lock-builtin-face)
    (,(concat "\\_<\\(type\\)[ \t\n]+\\(" xduce--name "\\)")
     (1 font-lock-keyword-face) (2 font-lock-type-face))
    (,(concat "\\_<\\(fun\\)[ \t\n]+\\(" xduce--name "\\)")
     (1 font-lock-keyword-face) (2 font-lock-function-name-face))
    (,(concat "\\_<\\(val\\)[ \t\n]+\\(" xduce--name "\\)")
     (1 font-lock-keyword-face) (2 font-lock-variable-name-face))
    ("\\_<\\(?:type\\|fun\\|val\\|as\\|match\\|with\\)\\_>" . font-lock-keyword-face)
    ("\\_<\\(?:String\\|Any\\)\\_>" . font-lock-type-face)
    ("->" . font-lock-keyword-face)
    ("()" . font-lock-constant-face)
    ;; Within texts: what is an escape, and what is none.
    ("\\\\[\"\\\\nt]" (0 (xduce--in-text 'font-lock-constant-face) prepend))
    ("\\\\[^\"\\\\nt]" (0 (xduce--in-text 'font-lock-warning-face) prepend)))
  "The colours of XDuce's programs and documents.")

(defun xduce--in-text (face)
  "FACE, where what was found stands in a text."
  (and (nth 3 (save-excursion (syntax-ppss (match-beginning 0)))) face))

(defun xduce--definition (&optional count)
  "Go back to the begin of a definition, COUNT times, or on where that is negative."
  (re-search-backward "^\\(?:type\\|fun\\)\\_>" nil 'move (or count 1)))

(defun xduce--definition-end ()
  "Go on from the begin of a definition to its end."
  (unless (eobp)
    (forward-char))
  (when (re-search-forward "^\\(?:type\\|fun\\)\\_>" nil 'move)
    (goto-char (match-beginning 0)))
  (forward-comment (- (buffer-size))))

(defun xduce--match (limit)
  "The last match that stands at this depth of brackets behind LIMIT, or nil."
  (let ((depth (car (syntax-ppss))) found)
    (save-excursion
      (while (and (not found) (re-search-backward "\\_<match\\_>[^[]" limit t))
        (let ((state (syntax-ppss)))
          (when (and (= (car state) depth) (not (nth 8 state)))
            (setq found (point)))))
      found)))

(defun xduce--indentation ()
  "The column that the line at point is to begin at, as `xduce-format' lays it out."
  ;; (a comment goes with what follows it)
  (forward-comment (buffer-size))
  (let* ((open (nth 1 (syntax-ppss)))
         (first (char-after))
         (limit (or open (save-excursion (xduce--definition) (point))))
         (match (and (eq first ?|) (xduce--match limit))))
    (cond
     ((and (not open) (looking-at "\\(?:type\\|fun\\)\\_>[^[]\\|\\'")) 0)
     ((and open (memq first '(?\) ?\])))
      (save-excursion (goto-char open) (current-indentation)))
     (match
      (save-excursion
        (goto-char match)
        (if (or (= (current-column) (current-indentation)) (eq (char-before) ?\())
            (current-column)
          (+ (current-indentation) 2))))
     ((eq first ?|)
      (+ 2 (if open (save-excursion (goto-char open) (current-indentation)) 0)))
     (t
      (save-excursion
        (forward-comment (- (buffer-size)))
        (let ((is-open (and open (= open (1- (point)))))
              (begins (progn (back-to-indentation) (current-column)))
              (is-clause (eq (char-after) ?|))
              (match (and (looking-at ".*\\_<with[ \t]*$")
                          (progn (end-of-line) (xduce--match limit)))))
          (cond
           (is-open (+ begins (if is-clause 4 2)))
           (match (goto-char match) (+ 2 (current-column)))
           ((progn (back-to-indentation) (looking-at ".*\\(?:=\\|->\\)[ \t]*$"))
            (+ begins (if is-clause 4 2)))
           (is-clause (+ begins 2))
           ((bobp) 0)
           (t begins))))))))

(defun xduce-indent-line ()
  "Indent the line at point, where it isn't within a text or a comment."
  (let ((state (save-excursion (syntax-ppss (line-beginning-position)))))
    (if (nth 8 state)
        'noindent
      (let ((column (save-excursion (back-to-indentation) (xduce--indentation))))
        (if (<= (current-column) (current-indentation))
            (indent-line-to column)
          (save-excursion (indent-line-to column)))))))

;;;###autoload
(define-derived-mode xduce-mode prog-mode "XDuce"
  "Programs and documents of XDuce."
  (setq-local comment-start "(* ")
  (setq-local comment-end " *)")
  (setq-local comment-start-skip "(\\*+[ \t]*")
  (setq-local font-lock-defaults '(xduce--font-lock))
  (setq-local font-lock-multiline t)
  (setq-local indent-line-function #'xduce-indent-line)
  (setq-local indent-tabs-mode nil)
  (setq-local electric-indent-chars (append "|])" electric-indent-chars))
  (setq-local beginning-of-defun-function #'xduce--definition)
  (setq-local end-of-defun-function #'xduce--definition-end)
  (setq-local imenu-generic-expression
              `(("Types" ,(concat "^type[ \t]+\\(" xduce--name "\\)") 1)
                ("Functions" ,(concat "^fun[ \t]+\\(" xduce--name "\\)") 1)))
  (when (and buffer-file-name (string-match-p "\\.x\\'" buffer-file-name))
    (setq-local compile-command
                (concat "xduce-explain "
                        (shell-quote-argument (file-name-nondirectory buffer-file-name))))))

(defun xduce-program-p ()
  "Whether the buffer is a file .x that is empty, or begins as one of XDuce.
The names of linker scripts and files of rpcgen may end so, too."
  (and buffer-file-name
       (string-match-p "\\.x\\'" buffer-file-name)
       (save-excursion
         (goto-char (point-min))
         (while (and (progn (skip-chars-forward " \t\r\n") (looking-at-p "(\\*"))
                     (search-forward "*)" nil 'move)))
         (or (eobp)
             (looking-at-p "\\(?:type\\|fun\\)[ \t]")
             (looking-at-p (concat "()\\|\"\\|" xduce--name "\\["))))))

;;;###autoload
(add-to-list 'auto-mode-alist '("\\.xd\\'" . xduce-mode))
(add-to-list 'magic-mode-alist '(xduce-program-p . xduce-mode))

(provide 'xduce-mode)

;;; xduce-mode.el ends here
