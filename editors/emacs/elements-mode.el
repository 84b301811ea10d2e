;;; elements-mode.el --- Books of elements, proofs in System E  -*- lexical-binding: t; -*-

;; Put this folder on `load-path' and (require 'elements-mode) into the init file.  With eglot
;; (part of Emacs 29; Debian's elpa-eglot before), M-x eglot starts the language server.

;;; Code:

(require 'compile)

(defgroup elements nil "Proofs in System E." :group 'languages)

(defcustom elements-command "euclid" "The companion of the checker." :type 'string)

(defvar elements-mode-syntax-table
  (let ((table (make-syntax-table)))
    (modify-syntax-entry ?# "<" table)
    (modify-syntax-entry ?\n ">" table)
    (dolist (char '(?. ?- ?_ ?')) (modify-syntax-entry char "_" table))
    table))

(defconst elements-font-lock
  `(("^[ \t]*\\(theorem\\|define\\|apply\\|by\\)[ \t]+\\(\\S +\\)"
     (1 font-lock-keyword-face) (2 font-lock-function-name-face))
    (,(concat "^[ \t]*" (regexp-opt '("points" "lines" "circles" "given" "made" "show" "proof" "end" "hence" "let"
                                      "claim" "superpose" "qed" "contradiction" "cases" "else") 'symbols))
     . font-lock-keyword-face)
    (,(regexp-opt '("on" "inside" "center" "between" "same-side" "meets" "not" "seg" "ang" "area" "right") 'symbols)
     . font-lock-type-face)))

(defun elements-indent-line ()
  "Indent a line by two blanks for each block that is open."
  (interactive)
  (let ((open nil) (end (line-beginning-position)))
    (save-excursion
      (beginning-of-line)
      (when (re-search-backward "^[ \t]*\\(proof\\|theorem\\|define\\)\\_>" nil t)
        (when (string= (match-string 1) "proof")
          (forward-line)
          (while (< (point) end)
            (when (looking-at "[ \t]*\\(\\S +\\)")
              (pcase (match-string 1)
                ((or "claim" "superpose") (push 'inner open))
                ("cases" (push 'first open))
                ("else" (push 'second open))
                ;; the close of a second case closes the block that was parted too
                ((or "qed" "contradiction") (while (eq (pop open) 'second)))
                ("end" (setq open nil))))
            (forward-line)))))
    (save-excursion (indent-line-to (* 2 (length open))))
    (when (< (current-column) (current-indentation)) (back-to-indentation))))

;;;###autoload
(define-derived-mode elements-mode prog-mode "Elements"
  "Major mode for books of elements."
  (setq-local comment-start "# " comment-end "")
  (setq-local font-lock-defaults '(elements-font-lock))
  (setq-local indent-line-function #'elements-indent-line)
  (setq-local imenu-generic-expression '((nil "^\\(?:theorem\\|define\\)[ \t]+\\(\\S +\\)" 1)))
  (setq-local compile-command (concat elements-command " check "
                                      (shell-quote-argument
                                       (if (file-exists-p "book.toml") "." (or (buffer-file-name) "."))))))

;;;###autoload
(add-to-list 'auto-mode-alist '("\\.\\(book\\|sketch\\)\\'" . elements-mode))

(with-eval-after-load 'eglot
  (add-to-list 'eglot-server-programs `(elements-mode . (,elements-command "lsp"))))

(provide 'elements-mode)
;;; elements-mode.el ends here
