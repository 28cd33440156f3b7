;; What Emacs has of rpcls: opens t.x, types, asks, and prints what it has then.
(require 'eglot)
(require 'xref)

(defun say (&rest words) (princ (concat (apply #'format words) "\n")))

(defun place (at)
  "A line and a column, both from 1, columns in characters."
  (save-excursion (goto-char at) (format "%d:%d" (line-number-at-pos) (1+ (- at (line-beginning-position))))))

(defun wait-for (holds)
  "Waits until a function holds, for five seconds at most."
  (with-timeout (5) (while (not (funcall holds)) (accept-process-output nil 0.01))))

(defun faults (wanted)
  "What is wrong in the buffer, once so many faults are told."
  (eglot--signal-textDocument/didChange)
  (flymake-start)
  (wait-for (lambda () (= (length (flymake-diagnostics)) wanted)))
  (say "%d faults" (length (flymake-diagnostics)))
  (dolist (it (sort (flymake-diagnostics) (lambda (a b) (< (flymake-diagnostic-beg a) (flymake-diagnostic-beg b)))))
    (say "  %s-%s %s" (place (flymake-diagnostic-beg it)) (place (flymake-diagnostic-end it))
         (flymake-diagnostic-text it))))

(defun type-over (word text)
  "Types a text over the first word of this name that stands behind point."
  (search-forward word)
  (replace-match text t t)
  (say "typed: %s" (buffer-substring (line-beginning-position) (line-end-position))))

(defun found (what items)
  (say "%s at %s: %d" what (place (point)) (length items))
  (dolist (it items)
    (let ((location (xref-item-location it)))
      (say "  %s:%s %s" (xref-location-line location) (1+ (xref-file-location-column location)) (xref-item-summary it)))))

(defun names-of (index)
  "The names of an outline, each before those in it."
  (mapcan (lambda (it) (cons (car it) (and (consp (cdr it)) (names-of (cdr it))))) index))

(defun renamed (name)
  "Gives the name at point a new one, and prints the lines then."
  (say "renamed at %s:" (place (point)))
  (eglot-rename name)
  (dolist (line (split-string (buffer-string) "\n" t)) (say "  %s" line)))

(find-file "t.x")
(run-hooks 'post-command-hook)
(wait-for #'eglot-current-server)
(say "mode %s" major-mode)
(faults 2)
(goto-char (point-min))
(type-over "t a" "int a")
(faults 0)
(type-over "[N" "[M")
(faults 1)
(backward-char 1)
(type-over "M" "N")
(faults 0)
(backward-char 1)
(found "definition" (xref-backend-definitions 'eglot (xref-backend-identifier-at-point 'eglot)))
(goto-char (point-min))
(search-forward "struct ")
(found "references" (xref-backend-references 'eglot (xref-backend-identifier-at-point 'eglot)))
(say "symbols: %s" (string-join (names-of (funcall imenu-create-index-function)) " "))
(renamed "point")
(faults 0)
(eglot-shutdown (eglot-current-server))
(say "ended: %s" (not (eglot-current-server)))
