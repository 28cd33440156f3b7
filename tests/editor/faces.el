;; Prints what the files of the command line hold: of each its mode, for each line a list with the face of
;; each character, and the lines as they are once all are indented.
(require 'json)

;; Nothing is to serve them.
(fset 'rpcls-ensure #'ignore)
(setq-default indent-tabs-mode nil)

(defun face-at (at)
  (let ((face (get-text-property at 'face))) (if face (symbol-name face) "")))

(defun faces-of-line ()
  (vconcat (mapcar #'face-at (number-sequence (line-beginning-position) (1- (line-end-position))))))

(defun faces ()
  "Those of the buffer, by lines."
  (font-lock-ensure)
  (goto-char (point-min))
  (let (lines)
    (while (not (eobp))
      (push (faces-of-line) lines)
      (forward-line 1))
    (vconcat (nreverse lines))))

(defun file-told (file)
  (find-file file)
  (let ((faces (faces)))
    (let ((inhibit-message t)) (indent-region (point-min) (point-max)))
    (vector (symbol-name major-mode) faces (vconcat (split-string (buffer-string) "\n")))))

(princ (json-encode (vconcat (mapcar #'file-told command-line-args-left))))
(setq command-line-args-left nil)
