;;; rem.el --- Moves the region's statements into a function of their own  -*- lexical-binding: t; -*-

;;; Commentary:

;; (load "/path/to/editors/emacs/rem.el"), then select statements and M-x rem-extract: it asks for a name, and with a prefix argument
;; passes by reference where both would do.  The buffer becomes the changed file, with point on the call; or a sentence says why there
;; is none, with point where it shows.

;;; Code:

(defgroup rem nil "Extract function, by a program that is proved." :group 'tools)

(defcustom rem-program "rem" "The program." :type 'string :group 'rem)

(defconst rem-sentences
  (expand-file-name "../sentences.txt" (file-name-directory (or load-file-name buffer-file-name)))
  "What the program's lines mean.")

(defun rem--coding ()
  "UTF-8 with the line ends of the buffer's file."
  (pcase (coding-system-eol-type (or buffer-file-coding-system 'utf-8-unix))
    (1 'utf-8-dos)
    (2 'utf-8-mac)
    (_ 'utf-8-unix)))

(defun rem--bytes (end)
  "The number of the file's bytes in front of END."
  (length (encode-coding-string (buffer-substring-no-properties (point-min) end) (rem--coding))))

(defun rem--position (bytes)
  "The position behind so many BYTES of the file."
  (let ((low (point-min)) (high (point-max)))
    (while (< low high)
      (let ((middle (/ (+ low high) 2)))
        (if (< (rem--bytes middle) bytes) (setq low (1+ middle)) (setq high middle))))
    low))

(defun rem--kept ()
  "The kept lines, each a list of words, number of places and sentence."
  (with-temp-buffer
    (insert-file-contents rem-sentences)
    (mapcar (lambda (line) (split-string line "\t")) (split-string (buffer-string) "\n" t))))

(defun rem--said (line)
  "The sentence for a LINE, by the longest that begins with its words, and the byte where it shows."
  (let* ((all (split-string line))
         (numbers (seq-filter (lambda (word) (string-match-p "\\`[0-9]+\\'" word)) all))
         (words (concat (mapconcat #'identity (seq-difference all numbers) " ") " "))
         (found (list "" "0" line)))
    (dolist (kept (rem--kept))
      (when (and (string-prefix-p (concat (car kept) " ") words) (> (length (car kept)) (length (car found))))
        (setq found kept)))
    (cons (nth 2 found) (and numbers (not (equal (nth 1 found) "0")) (string-to-number (car numbers))))))

(defun rem--refuse (line)
  "Says what a LINE of the program means."
  (let* ((said (rem--said (string-remove-prefix "error: " (string-trim line)))) (place (cdr said)))
    (when place (goto-char (rem--position place)))
    (message "rem: %s%s" (car said)
             (if place (format " (line %d, column %d)" (line-number-at-pos) (1+ (- (point) (line-beginning-position)))) ""))))

(defun rem--replace (answer name)
  "Puts the ANSWER's text into the buffer, and point on the call of NAME."
  (replace-buffer-contents answer)
  (goto-char (point-min))
  (let ((case-fold-search nil))
    (when (re-search-forward (concat "\\_<" (regexp-quote name) "(") nil t) (goto-char (match-beginning 0)))))

;;;###autoload
(defun rem-extract (begin end name &optional by-reference)
  "Moves the statements from BEGIN to END into a function NAME; BY-REFERENCE, variables are lent where both would do."
  (interactive "r\nsName of the new function: \nP")
  (let* ((coding (rem--coding))
         (coding-system-for-write coding)
         (coding-system-for-read coding)
         (words (list "extract" name (number-to-string (rem--bytes begin)) (number-to-string (rem--bytes end))))
         (errors (make-temp-file "rem"))
         (answer (generate-new-buffer " *rem*")))
    (unwind-protect
        (let ((status (apply #'call-process-region (point-min) (point-max) rem-program nil (list answer errors) nil
                             (append words (and by-reference '("ref"))))))
          (if (equal status 0)
              (rem--replace answer name)
            (rem--refuse (with-temp-buffer (insert-file-contents errors) (buffer-string)))))
      (delete-file errors)
      (kill-buffer answer))))

(provide 'rem)
;;; rem.el ends here
