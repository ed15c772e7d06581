;;; What Emacs shows and does with the language server, for .ci/editors  -*- lexical-binding: t; -*-

;; The facts, as JSON in the file `out`.  The first file that is named is a program whose first line
;; has a wrong name; the second one is laid out.

(require 'cl-lib)
(require 'json)
(require 'xduce-mode)
(require 'eglot)
(require 'flymake)

(setq eglot-sync-connect 15
      eglot-confirm-server-initiated-edits nil
      eglot-confirm-server-edits nil
      eglot-send-changes-idle-time 0
      make-backup-files nil)

(defvar facts nil "What was seen: names, and values.")

(defun tell (name value)
  (push (cons name value) facts))

(defun wait (what)
  "Wait until WHAT gives a value, and give it."
  (let ((until (+ (float-time) 15)) found)
    (while (and (not (setq found (funcall what))) (< (float-time) until))
      (accept-process-output nil 0.02))
    found))

(defun lines ()
  (vconcat (split-string (buffer-substring-no-properties (point-min) (point-max)) "\n" t)))

(defun go (line text)
  "Go to TEXT in a line."
  (goto-char (point-min))
  (forward-line (1- line))
  (search-forward text)
  (goto-char (match-beginning 0)))

(defun faults ()
  (vconcat
   (mapcar (lambda (it)
             (let ((begin (flymake-diagnostic-beg it)))
               (vector (line-number-at-pos begin)
                       (buffer-substring-no-properties begin (flymake-diagnostic-end it))
                       (string-remove-prefix "eglot-" (symbol-name (flymake-diagnostic-type it)))
                       ;; (in front of it stands what Eglot says of the server)
                       (replace-regexp-in-string "\\`xduce[^:]*: \\|\n\\(?:.\\|\n\\)*\\'" ""
                                                 (flymake-diagnostic-text it)))))
           (flymake-diagnostics))))

(defun places (found)
  "The lines of what xref found."
  (vconcat (mapcar (lambda (it)
                     (let ((place (xref-location-marker (xref-item-location it))))
                       (with-current-buffer (marker-buffer place) (line-number-at-pos place))))
                   found)))

(defun faces ()
  "The words of the buffer that have colours."
  (font-lock-ensure)
  (let (found)
    (goto-char (point-min))
    (while (re-search-forward "[A-Za-z]+" nil t)
      (let ((face (get-text-property (match-beginning 0) 'face)))
        (when face
          (push (format "%s %s" (match-string-no-properties 0) face) found))))
    (vconcat (nreverse found))))

(defun look ()
  (find-file (pop command-line-args-left))
  (switch-to-buffer (current-buffer))
  (tell 'faces (faces))
  (apply #'eglot--connect (eglot--guess-contact))
  (wait #'eglot-current-server)
  (flymake-start)
  (wait #'flymake-diagnostics)
  (tell 'faults (faults))

  (go 3 "Title")
  (let (shown)
    (eglot-hover-eldoc-function (lambda (text &rest _) (setq shown text)))
    (wait (lambda () shown))
    (tell 'hover (and shown (substring-no-properties shown))))
  (tell 'definition (aref (places (xref-backend-definitions 'eglot "Title")) 0))
  (tell 'references (places (xref-backend-references 'eglot "Title")))
  (let ((capf (eglot-completion-at-point)))
    (tell 'completed (vconcat (mapcar #'substring-no-properties
                                      (all-completions "Ti" (nth 2 capf) nil)))))

  (let ((before (buffer-string)))
    (eglot-rename "Heading")
    (tell 'renamed (lines))
    (erase-buffer)
    (insert before))

  ;; (which a timer does where somebody is at the keyboard)
  (eglot--signal-textDocument/didChange)
  (wait #'flymake-diagnostics)
  (go 1 "Titel")
  (let ((action (aref (vconcat (eglot-code-actions (point) (+ (point) 5))) 0)))
    (tell 'actions (vector (plist-get action :title)))
    (eglot--apply-workspace-edit (plist-get action :edit) nil))
  (eglot--signal-textDocument/didChange)
  (tell 'corrected (aref (lines) 0))
  (wait (lambda () (not (flymake-diagnostics))))
  (tell 'left (faults))

  (eglot-format-buffer)
  (tell 'formatted (lines))
  (set-buffer-modified-p nil)
  (eglot-shutdown-all)

  ;; Indentation is that of the layout.
  (find-file (pop command-line-args-left))
  (tell 'mode (symbol-name major-mode))
  (let ((before (append (lines) nil)))
    (indent-region (point-min) (point-max))
    (tell 'moved (vconcat (cl-set-difference (append (lines) nil) before :test #'equal)))))

(condition-case error
    (look)
  (error (tell 'error (format "%S" error))))
(with-temp-file "out"
  (insert (json-encode facts)))
(kill-emacs 0)
