;;; codesearch.el --- Search this project with cs -*- lexical-binding: t -*-

;; Copyright (c) 2026 The codesearch authors. BSD 3-clause license.
;; Version: 0.9.1

;;; Commentary:

;; M-x codesearch asks for the arguments of cs(1), as a shell reads them, and lists the lines in a buffer of
;; grep-mode: M-g n and M-g p go from one to another. TAB completes options.

;;; Code:

(require 'grep)

(defgroup codesearch nil "Search this project with cs." :group 'tools)

(defcustom codesearch-command "cs"
  "The program cs."
  :type 'string)

(defvar codesearch-history nil "Arguments of earlier searches.")

(defconst codesearch-options
  '("-A" "-B" "-C" "-F" "-S" "-T" "-d" "-e" "-g" "-i" "-m" "-t" "-u" "-w" "-x" "--no-state")
  "Options that TAB completes.")

(defun codesearch-complete ()
  "Complete the option before point."
  (let ((start (save-excursion (skip-chars-backward "^ \t" (minibuffer-prompt-end)) (point))))
    (when (eq (char-after start) ?-)
      (list start (point) codesearch-options))))

(defun codesearch-read ()
  "Read the arguments of a search; the symbol at point is the default."
  (let ((symbol (thing-at-point 'symbol t)))
    (minibuffer-with-setup-hook
        (lambda () (add-hook 'completion-at-point-functions #'codesearch-complete nil t))
      (let ((map (copy-keymap minibuffer-local-map)))
        (define-key map (kbd "TAB") #'completion-at-point)
        (read-from-minibuffer "cs: " (and symbol (concat "-w " (shell-quote-argument symbol))) map nil
                              'codesearch-history)))))

;;;###autoload
(defun codesearch (arguments)
  "Search this project for ARGUMENTS, which are those of cs(1)."
  (interactive (list (codesearch-read)))
  (compilation-start
   (concat codesearch-command " --color=never -H --column " arguments)
   #'grep-mode))

(provide 'codesearch)
;;; codesearch.el ends here
