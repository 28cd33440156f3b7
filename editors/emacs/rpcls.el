;;; rpcls.el --- Files of the Sun RPC language (rpcgen)  -*- lexical-binding: t; -*-

;; Version: 0.1.0
;; Package-Requires: ((emacs "26.1"))
;; Keywords: languages

;;; Commentary:

;; A mode for .x files, which the language server rpcls serves through eglot.  Emacs has eglot from version 29
;; on; for earlier ones it is a package.  Without it there are the colours alone.  Copy this file to a folder,
;; and write in your init file:
;;
;;     (load "/that/folder/rpcls.el")

;;; Code:

(defvar eglot-server-programs)
(declare-function eglot-ensure "eglot")

(defgroup rpcgen nil
  "Files of the Sun RPC language."
  :group 'languages)

(defcustom rpcls-command '("rpcls" "--c-types")
  "The server and its options, as `eglot-server-programs' takes them.
If it is not in a folder of the PATH, its whole path.  Settings may follow:
\(\"rpcls\" :initializationOptions (:cTypes t :foreign :json-false))."
  :type '(repeat sexp))

(defcustom rpcgen-indent-offset 4
  "By how much a line is indented for each brace that is open."
  :type 'integer
  :safe #'integerp)

(defconst rpcgen-keywords
  '("case" "const" "default" "enum" "program" "struct" "switch" "typedef" "union" "version")
  "The keywords that are no types.")

(defconst rpcgen-types
  '("bool" "double" "float" "hyper" "int" "long" "opaque" "quadruple" "string" "unsigned" "void")
  "The keywords that are types, or parts of one.")

(defconst rpcgen-number
  "\\`\\(?:-?[1-9][0-9]*\\|0[0-7]*\\|0[xX][0-9A-Fa-f]+\\)\\'"
  "A number; other words that begin as one are wrong.")

(defvar rpcgen-font-lock-keywords
  `(;; A line of the C preprocessor, and those that a backslash joins to it; and one for the C text.
    ("^[ \t]*#.*?\\(//.*\\)" 1 font-lock-comment-face keep)
    ("^[ \t]*#\\(?:.*\\\\\n\\)*.*" 0 font-lock-preprocessor-face keep)
    ("^%.*" 0 font-lock-preprocessor-face keep)
    (,(regexp-opt rpcgen-keywords 'symbols) . font-lock-keyword-face)
    (,(regexp-opt rpcgen-types 'symbols) . font-lock-type-face)
    ("\\_<\\(?:TRUE\\|FALSE\\)\\_>" . font-lock-constant-face)
    ("-?\\_<[0-9][A-Za-z0-9_]*"
     0 (if (string-match-p rpcgen-number (match-string 0)) 'font-lock-constant-face 'font-lock-warning-face))
    ;; Behind `union' there may be `switch', which has its face by then.
    ("\\_<\\(?:enum\\|program\\|struct\\|union\\|version\\)[ \t]+\\([A-Za-z_][A-Za-z0-9_]*\\)"
     1 font-lock-function-name-face)
    ("\\_<const[ \t]+\\([A-Za-z_][A-Za-z0-9_]*\\)" 1 font-lock-variable-name-face))
  "What has which face; comments have theirs by `rpcgen-mode-syntax-table'.")

(defvar rpcgen-mode-syntax-table
  (let ((table (make-syntax-table)))
    (modify-syntax-entry ?/ ". 14" table)
    (modify-syntax-entry ?* ". 23" table)
    (modify-syntax-entry ?_ "_" table)
    ;; The language has no strings.
    (dolist (mark '(?\" ?\' ?% ?& ?+ ?- ?< ?= ?> ?|) table)
      (modify-syntax-entry mark "." table)))
  "Comments, and the characters of words.")

(defun rpcgen-syntax-propertize (start end)
  "Has no comment begin in a line that begins with `%', from START to END."
  (goto-char start)
  (while (re-search-forward "^%.*" end t)
    (let ((line-start (match-beginning 0))
          (line-end (match-end 0)))
      (unless (nth 4 (save-excursion (syntax-ppss line-start)))
        (goto-char line-start)
        (while (re-search-forward "/" line-end t)
          (put-text-property (1- (point)) (point) 'syntax-table (string-to-syntax "."))))
      (goto-char line-end))))

(defun rpcgen-indent-line ()
  "Indent the line by the braces that are open at its front.
The cases of a union stand where it stands.
A line that begins with `%' or `#' keeps its place, since that
counts there; so does one that begins within a comment."
  (let* ((front (save-excursion (back-to-indentation) (point)))
         (state (save-excursion (syntax-ppss front)))
         (closes (or (memq (char-after front) '(?} ?\]))
                     (save-excursion (goto-char front) (looking-at "\\_<\\(?:case\\|default\\)\\_>"))))
         (column (* rpcgen-indent-offset (max 0 (- (car state) (if closes 1 0))))))
    (cond ((or (nth 4 state) (memq (char-after front) '(?% ?#))) 'noindent)
          ((<= (point) front) (indent-line-to column))
          (t (save-excursion (indent-line-to column))))))

(defun rpcgen-fill-paragraph (&optional _)
  "Fill nothing: lines of the language are no paragraphs."
  t)

;;;###autoload
(define-derived-mode rpcgen-mode prog-mode "RPC"
  "A mode for files of the Sun RPC language."
  (setq-local comment-start "/* ")
  (setq-local comment-end " */")
  (setq-local comment-start-skip "/\\*+[ \t]*")
  (setq-local syntax-propertize-function #'rpcgen-syntax-propertize)
  (setq-local indent-line-function #'rpcgen-indent-line)
  (setq-local fill-paragraph-function #'rpcgen-fill-paragraph)
  (setq-local electric-indent-chars (cons ?} electric-indent-chars))
  (setq-local font-lock-multiline t)
  (setq-local font-lock-defaults '(rpcgen-font-lock-keywords)))

;;;###autoload
(add-to-list 'auto-mode-alist '("\\.x\\'" . rpcgen-mode))

(defun rpcls-contact (&rest _)
  "What eglot starts for a buffer of `rpcgen-mode'."
  rpcls-command)

(with-eval-after-load 'eglot
  (add-to-list 'eglot-server-programs '(rpcgen-mode . rpcls-contact)))

(defun rpcls-ensure ()
  "Has rpcls serve the buffer, where eglot is installed."
  (when (require 'eglot nil t) (eglot-ensure)))

(add-hook 'rpcgen-mode-hook #'rpcls-ensure)

(provide 'rpcls)

;;; rpcls.el ends here
