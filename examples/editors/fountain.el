;;; fountain.el --- the sheet of a script's line beside the script  -*- lexical-binding: t -*-

;; Shows the sheet of the line at point beside a script, for Emacs 27 or later; load it from ~/.emacs:
;;
;;     (load "PLACE/fountain.el")
;;
;; It needs fountain-sheet-at on the path, and for M-x compile fountain-check-script.
;;
;; In each script, a file whose name ends in .fountain, `fountain-sheet-mode' is on: the sheet opens with the first save, or with
;; M-x fountain-sheet-show, and from then on follows point.  The sheets are those of the script as it was saved last.  Where it can't be
;; read, what is wrong stands in their place.  M-x compile lists what is wrong with the script; M-g n goes from one to the next.

;;; Code:

(require 'subr-x)

(defconst fountain-sheet-buffer "*fountain sheet*")

(defvar fountain-sheet--saves 0 "How many saves there were.")
(defvar fountain-sheet--place nil "The file, the line and the save whose sheet is wanted.")
(defvar fountain-sheet--process nil "What asks for a sheet.")

(defun fountain-sheet--place-here ()
  (list (expand-file-name buffer-file-name) (number-to-string (line-number-at-pos nil t)) fountain-sheet--saves))

(defun fountain-sheet--window ()
  (get-buffer-window fountain-sheet-buffer))

(defun fountain-sheet-show ()
  "Show the sheet of the line at point beside the script."
  (interactive)
  (unless (fountain-sheet--window)
    (with-current-buffer (get-buffer-create fountain-sheet-buffer)
      (buffer-disable-undo)
      (setq truncate-lines t))
    ;; No other buffer takes its window.
    (set-window-dedicated-p (display-buffer fountain-sheet-buffer '(display-buffer-in-direction (direction . right))) t))
  (setq fountain-sheet--saves (1+ fountain-sheet--saves))
  (fountain-sheet--ask))

(defun fountain-sheet--follow ()
  (when (and (fountain-sheet--window)
             (not (buffer-modified-p))
             (not (equal fountain-sheet--place (fountain-sheet--place-here))))
    (fountain-sheet--ask)))

(defun fountain-sheet--ask ()
  "Ask for the sheet of this line, or leave it to the end of what is asked."
  (setq fountain-sheet--place (fountain-sheet--place-here))
  (unless (process-live-p fountain-sheet--process)
    (fountain-sheet--begin)))

(defun fountain-sheet--begin ()
  (let ((place fountain-sheet--place)
        (told (generate-new-buffer " *fountain-sheet-at*"))
        (coding-system-for-read 'utf-8-unix)
        (default-directory (file-name-directory (car fountain-sheet--place))))
    (condition-case fault
        (setq fountain-sheet--process
              (make-process :name "fountain-sheet-at" :buffer told :noquery t :connection-type 'pipe
                            :command (list "fountain-sheet-at" "--json" (car place) (cadr place))
                            :sentinel (lambda (process _) (fountain-sheet--end process place))))
      (file-missing
       (kill-buffer told)
       (fountain-sheet--tell (list (error-message-string fault)) nil)))))

(defun fountain-sheet--end (process place)
  (unless (process-live-p process)
    (let ((told (with-current-buffer (process-buffer process) (buffer-string))))
      (kill-buffer (process-buffer process))
      (if (equal place fountain-sheet--place)
          (fountain-sheet--told told)
        (fountain-sheet--begin)))))

(defun fountain-sheet--told (told)
  "Show the sheet that was TOLD in one line, or what was told in its place."
  (if (string-prefix-p "{" told)
      (let ((sheet (json-parse-string told)))
        (fountain-sheet--tell (split-string (string-remove-suffix "\f" (gethash "text" sheet)) "\n") (gethash "row" sheet)))
    (fountain-sheet--tell (list told) nil)))

(defun fountain-sheet--tell (rows row)
  "Show ROWS in the window beside the script, with the place at ROW; what is no sheet has no place, and its rows are wrapped."
  (when (fountain-sheet--window)
    (with-selected-window (fountain-sheet--window)
      (setq truncate-lines row)
      (erase-buffer)
      (insert (string-join rows "\n"))
      (set-buffer-modified-p nil)
      (goto-char (point-min))
      (forward-line (or row 0))
      ;; From the top, as far down as the row asks for.
      (if (< (or row 0) (window-body-height))
          (set-window-start nil (point-min))
        (recenter)))))

(define-minor-mode fountain-sheet-mode
  "Show the sheet of the line at point beside a script."
  :lighter " Sheet"
  (if fountain-sheet-mode
      (progn
        (add-hook 'after-save-hook #'fountain-sheet-show nil t)
        (add-hook 'post-command-hook #'fountain-sheet--follow nil t)
        (setq-local compile-command (concat "fountain-check-script " (shell-quote-argument (file-name-nondirectory buffer-file-name)))))
    (remove-hook 'after-save-hook #'fountain-sheet-show t)
    (remove-hook 'post-command-hook #'fountain-sheet--follow t)
    (kill-local-variable 'compile-command)))

;; Emacs itself takes no names with " -" in them.
(with-eval-after-load 'compile
  (add-to-list 'compilation-error-regexp-alist-alist '(fountain "^\\(.+?\\.fountain\\):\\([1-9][0-9]*\\): " 1 2 nil 1))
  (add-to-list 'compilation-error-regexp-alist 'fountain))

(defun fountain-sheet--find-file ()
  (when (string-suffix-p ".fountain" buffer-file-name)
    (fountain-sheet-mode 1)))
(add-hook 'find-file-hook #'fountain-sheet--find-file)

(provide 'fountain)
;;; fountain.el ends here
