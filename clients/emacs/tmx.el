;;; tmx.el --- Show and edit TeXmacs documents with tmx  -*- lexical-binding: t; -*-

;; Version: 1.0
;; Package-Requires: ((emacs "26.1"))
;; Keywords: tex, wp

;;; Commentary:

;; `tmx-mode' shows a TeXmacs document, page by page, as the program tmx lays
;; it out.  Put this file where Emacs finds it, and into your init file:
;;
;;   (require 'tmx)
;;
;; A file whose name ends in .tm then opens in `tmx-mode', read-only.  In a
;; document the arrow keys move from stop to stop, and the page keys from page
;; to page.  C-c C-l lists the errors, and C-c C-y opens the document once more
;; with another style file.  C-c C-e begins and ends editing: then letters, DEL
;; and RET change the document at the cursor, C-/ takes an edit back, and
;; C-x C-s saves.  `g' opens the document anew.  The cursor follows point where
;; other commands or the mouse have moved it.
;;
;; The buffer shows a page and doesn't hold the document, which the program
;; has.  Lisp programs can start a program of their own with `tmx-start' and
;; call `tmx-ask' and `tmx-command'.
;;
;; A program reads 2^24 bytes of commands at most.  Where few of them are left,
;; the header line says so: save, and open the document anew.

;;; Code:

(require 'cl-lib)
(require 'subr-x)
(require 'tabulated-list)

(defgroup tmx nil
  "TeXmacs documents, shown and edited with tmx."
  :group 'text)

(defcustom tmx-program "tmx"
  "The program."
  :type 'file)

(defcustom tmx-width 80
  "How many columns a page has, from 20 to 500."
  :type 'integer)

(defcustom tmx-height 24
  "How many lines a page has, from 5 to 500."
  :type 'integer)

(defcustom tmx-time-limit 60
  "After how many seconds without a reply the program is ended."
  :type 'number)

(defcustom tmx-styles nil
  "Style files that documents are opened with."
  :type '(repeat file))

(defconst tmx-script-limit 16777216
  "How many bytes of commands a program reads.")

(define-error 'tmx-error "TeXmacs document" 'user-error)
(define-error 'tmx-refused "Refused" 'tmx-error)
(define-error 'tmx-ended "The program tmx has ended" 'tmx-error)
(define-error 'tmx-timed-out "No reply within the time limit" 'tmx-error)

;;;; Text

(defconst tmx--characters
  (append (cl-loop for byte from 32 to 126
                   unless (memq byte '(?< ?>)) collect (cons byte byte))
          (cl-loop for (first . characters) in
                   '((1 . "´ˆ˜¨˝˚ˇ˘") (11 . "¸˛") (14 . "‹›")
                     (16 . "“”„«»–—\ufffd₀ıȷﬀﬁﬂﬃﬄ") (127 . "‐")
                     (128 . "ĂĄĆČĎĚĘĞĹĽŁŃŇŊŐŔ") (144 . "ŘŚŠŞŤŢŰŮŸŹŽŻĲİđ§")
                     (160 . "ăąćčďěęğĺľłńňŋőŕ") (176 . "řśšşťţűůÿźžżĳ¡¿£")
                     (215 . "Œ") (223 . "ẞ") (247 . "œ") (255 . "ß"))
                   nconc (cl-loop for character across characters
                                  for byte from first
                                  collect (cons character byte)))
          (cl-loop for byte from 192 to 255
                   unless (memq byte '(215 223 247 255))
                   collect (cons byte byte)))
  "Each character that a text of a document has as one byte, with that byte.")

(defconst tmx--symbols
  (cl-loop for (characters . names) in
           '(("αβγδεζηθικλμν" alpha beta gamma delta epsilon zeta eta theta
              iota kappa lambda mu nu)
             ("ξοπρστυφχψω" xi omicron pi rho sigma tau upsilon phi chi psi
              omega)
             ("ΓΔΘΛΞΠΣΥΦΨΩ" Gamma Delta Theta Lambda Xi Pi Sigma Upsilon Phi
              Psi Omega)
             ("<>≤≥≠×±⋅" less gtr leq geq neq times pm cdot)
             ("∞∀∃∈→←…" infty forall exists in rightarrow leftarrow ldots))
           nconc (cl-loop for character across characters
                          for name in names
                          collect (cons character (symbol-name name))))
  "Each character that a text of a document has as a symbol, with its name.")

(defun tmx-encode (text)
  "Return the bytes that a document has for TEXT, as a unibyte string.
A control character is an error: no text of a document holds one."
  (mapconcat #'tmx--encode-character text ""))

(defun tmx--encode-character (character)
  "Return the bytes for CHARACTER."
  (let ((byte (alist-get character tmx--characters))
        (name (alist-get character tmx--symbols)))
    (cond (byte (unibyte-string byte))
          (name (string-to-unibyte (format "<%s>" name)))
          ((or (> character #x10ffff)
               (memq (get-char-code-property character 'general-category)
                     '(Cc Cs)))
           (signal 'tmx-error (list (format "No text holds U+%04X" character))))
          (t (string-to-unibyte (format "<#%X>" character))))))

(defun tmx-quote (bytes)
  "Return the tree that is the text BYTES, in the Scheme syntax."
  (concat "\"" (replace-regexp-in-string "[\\\"]" "\\\\\\&" bytes) "\""))

;;;; The program and its replies

(cl-defstruct (tmx-session (:constructor tmx--make-session) (:copier nil))
  "A running program."
  process
  (width 80 :documentation "How many columns a page has.")
  (height 24 :documentation "The most lines that a page has.")
  (sent 0 :documentation "How many bytes of commands it was given.")
  (last nil :documentation "The last line of its output.")
  (deadline 0 :documentation "When the time for the reply is over."))

(defun tmx-start (file &optional styles width height)
  "Start a program with the document FILE and the style files STYLES.
WIDTH and HEIGHT are the size of a page.  Return the session.  Signal
`tmx-ended' with the status and its line where the program refuses a file."
  (let* ((width (or width tmx-width))
         (height (or height tmx-height))
         (words (append (list tmx-program (format "--width=%d" width)
                              (format "--height=%d" height) "--")
                        (mapcar #'tmx--file-word (cons file styles))))
         (session (tmx--make-session :process (tmx--make-process words)
                                     :width width :height height)))
    (tmx--await-opened session)
    session))

(defun tmx--file-word (file)
  "Return FILE as a word of the command line that names no generated document."
  (if (string-prefix-p "gen:" file) (concat "./" file) file))

(defun tmx--make-process (words)
  "Start a process with the command line WORDS.
What it writes on the standard error, for people, isn't kept."
  (let ((output (generate-new-buffer " *tmx*"))
        (said (make-pipe-process :name "tmx-said" :buffer nil :noquery t
                                 :filter #'ignore :sentinel #'ignore))
        process)
    (with-current-buffer output
      (set-buffer-multibyte nil)
      (buffer-disable-undo))
    (unwind-protect
        (setq process (make-process
                       :name "tmx" :buffer output
                       :command (mapcar #'tmx--utf-8 words)
                       :connection-type 'pipe :coding '(binary . binary)
                       :noquery t :stderr said :sentinel #'ignore))
      (unless process
        (delete-process said)
        (kill-buffer output)))
    process))

(defun tmx--utf-8 (word)
  "Return WORD in UTF-8."
  (encode-coding-string word 'utf-8))

(defun tmx--await-opened (session)
  "Wait until SESSION's program has opened its files.
Where it refuses them, all that it writes is the line of its status."
  (tmx--whole-reply session
    (lambda ()
      (tmx--send session "cursor")
      (let ((line (tmx--next-line session))
            lines)
        (unless (and line (string-prefix-p "/" line))
          (while line
            (push line lines)
            (setq line (tmx--next-line session)))
          (tmx--signal-end session (nreverse lines)))))))

(defun tmx--whole-reply (session function)
  "Call FUNCTION, and end SESSION's program where that doesn't return.
So what is left of a reply is never taken for another one.  Quitting has
to wait, since it would end the program and lose the document."
  (let ((inhibit-quit t)
        whole)
    (unwind-protect
        (prog1 (funcall function)
          (setq whole t))
      (unless whole
        (tmx-end session)))))

(defun tmx-end (session)
  "End SESSION's program at once.  What wasn't saved is lost."
  (let ((process (tmx-session-process session)))
    (when (process-live-p process)
      (delete-process process))
    (when (buffer-live-p (process-buffer process))
      (kill-buffer (process-buffer process)))))

(defun tmx-live-p (session)
  "Return whether SESSION's program is running."
  (process-live-p (tmx-session-process session)))

(defun tmx--send (session &rest lines)
  "Send LINES to SESSION's program, and begin to wait for a reply."
  (let ((script (mapconcat (lambda (line) (concat line "\n")) lines "")))
    (cl-incf (tmx-session-sent session) (length script))
    (setf (tmx-session-deadline session) (+ (float-time) tmx-time-limit)
          (tmx-session-last session) nil)
    ;; Where the program has ended, reading its output says so.
    (ignore-errors
      (process-send-string (tmx-session-process session) script))))

(defun tmx--next-line (session)
  "Return the next line of SESSION's output, or nil at its end."
  (let* ((process (tmx-session-process session))
         (output (process-buffer process))
         (looked 0))
    (when (buffer-live-p output)
      (with-current-buffer output
        (while (and (progn (goto-char (+ (point-min) looked))
                           (not (search-forward "\n" nil t)))
                    (progn (setq looked (buffer-size))
                           (tmx--more-output session))))
        (unless (bobp)
          (when (eq (char-before) ?\n)
            (prog1 (buffer-substring-no-properties (point-min) (1- (point)))
              (delete-region (point-min) (point)))))))))

(defun tmx--more-output (session)
  "Wait for more output of SESSION's program.  Return whether it may have come."
  (let* ((process (tmx-session-process session))
         (left (- (tmx-session-deadline session) (float-time)))
         (live (process-live-p process)))
    (when (and live (<= left 0))
      (signal 'tmx-timed-out nil))
    (or (accept-process-output process (if live left 0) nil t)
        live)))

(defconst tmx--last-lines '("input" "memory" "script-long")
  "Lines that are no replies: the program ends after each of them.")

(defun tmx--line (session)
  "Return the next line of SESSION's reply."
  (let ((line (tmx--next-line session)))
    (unless line
      (tmx--signal-end session (and (tmx-session-last session)
                                    (list (tmx-session-last session)))))
    (setf (tmx-session-last session) line)))

(defun tmx--signal-end (session lines)
  "Signal that SESSION's program has ended, with its status and line.
LINES are that line, where the status has one.  Where a signal ended the
program, the status is the signal's number below 0."
  (let ((process (tmx-session-process session)))
    (while (process-live-p process)
      (tmx--more-output session))
    (let ((status (if (eq (process-status process) 'signal)
                      (- (process-exit-status process))
                    (process-exit-status process))))
      (signal 'tmx-ended
              (list status
                    (and lines (memq status '(2 3 4 5 6 8 9))
                         (decode-coding-string (string-join lines "\n")
                                               'utf-8)))))))

(defun tmx-ask (session line)
  "Send LINE to SESSION's program, and return the lines of the reply.
LINE is a unibyte string without its end, and so are the lines of the reply,
which may be a refusal."
  (when (or (member line '("" "quit")) (string-match-p "\n\\|\r\\'" line))
    (signal 'tmx-error (list "Not a line with a reply" line)))
  (tmx--whole-reply session
    (lambda ()
      (cond ((tmx--asks-page-p line) (tmx--ask-page session line))
            ((string-prefix-p "attrs " line) (tmx--ask-attrs session line))
            (t (tmx--ask-counted session line))))))

(defun tmx--ask-counted (session line)
  "Ask SESSION the LINE.  The reply is one line, or has the number of its lines."
  (tmx--send session line)
  (let* ((first (tmx--line session))
         (count (cond ((string-match "\\`pages \\([0-9]+\\) rows \\([0-9]+\\)\\'"
                                     first)
                       (+ (string-to-number (match-string 1 first))
                          (string-to-number (match-string 2 first))))
                      ((string-match "\\`errors \\([0-9]+\\)\\'" first)
                       (string-to-number (match-string 1 first)))
                      (t 0))))
    (when (member first tmx--last-lines)
      (tmx--line session))
    (cons first (cl-loop repeat count collect (tmx--line session)))))

(defun tmx--ask-attrs (session line)
  "Ask SESSION LINE, an `attrs', whose reply doesn't say how many lines it has.
None of them begins with a slash, as the reply to `cursor' does."
  (tmx--send session line "cursor")
  (let ((next (tmx--line session))
        lines)
    (while (not (string-prefix-p "/" next))
      (push next lines)
      (setq next (tmx--line session)))
    (nreverse lines)))

(defun tmx--asks-page-p (line)
  "Return whether LINE is a `page N' that may show a page."
  (and (string-match "\\`page \\([0-9]\\{1,10\\}\\)\\'" line)
       (< 0 (string-to-number (match-string 1 line)) 4294967296)))

(defun tmx--ask-page (session line)
  "Ask SESSION LINE, a `page N', whose rows may look like any reply.
`cursor' is asked after it, and then `page 0' as often as a page has lines.
Rows can't hold that many equal lines, nor can they end in a front of these
replies, since the first of them is another one."
  (tmx--send session "page 0" "cursor")
  (let* ((pages (tmx--line session))
         (place (tmx--line session))
         (height (tmx-session-height session)))
    (if (not (string-prefix-p "no page " pages))
        (list pages)
      (apply #'tmx--send session line "cursor" (make-list height "page 0"))
      (let ((run -1)
            (lines nil))
        ;; RUN counts the lines PAGES after the last line PLACE.
        (while (< run height)
          (push (tmx--line session) lines)
          (setq run (cond ((equal (car lines) place) 0)
                          ((and (>= run 0) (equal (car lines) pages)) (1+ run))
                          (t -1))))
        (nreverse (nthcdr (1+ height) lines))))))

(defun tmx-command (session &rest words)
  "Ask SESSION the command WORDS, and return the lines of the reply.
A word is a string or a number.  Signal `tmx-refused' with the reply where
the command is refused."
  (let ((reply (tmx-ask session
                        (mapconcat (lambda (word) (format "%s" word))
                                   words " "))))
    (when (and reply (string-prefix-p "no " (car reply)))
      (signal 'tmx-refused reply))
    (mapcar (lambda (line) (decode-coding-string line 'utf-8 t)) reply)))

(defun tmx-show (session)
  "Return the pages of SESSION's document, each as a list of rows."
  (let* ((reply (tmx-command session "show"))
         (count (string-to-number (substring (car reply) 6))))
    (or (tmx--split-pages (cdr reply) count)
        (cl-loop for number from 1 to count
                 collect (cdr (tmx-command session "page" number))))))

(defun tmx--split-pages (lines count)
  "Return the COUNT pages of LINES, or nil where it isn't clear which they are.
That is where a row looks like the head of a page."
  (let (pages)
    (dolist (line lines)
      (if (and (string-match "\\`page \\([1-9][0-9]*\\)\\'" line)
               (<= (string-to-number (match-string 1 line)) count))
          (push nil pages)
        (push line (car pages))))
    (when (= (length pages) count)
      (nreverse (mapcar #'nreverse pages)))))

(defun tmx-runs (session row)
  "Return the longest pieces of SESSION's ROW whose cells look the same.
Each is a list of the first column, the column after the last one, the series,
the shape and the colour."
  (mapcar (lambda (line)
            (string-match (concat "\\`\\([0-9]+\\) \\([0-9]+\\)"
                                  " \\([^ ]*\\) \\([^ ]*\\) \\(.*\\)\\'")
                          line)
            (list (string-to-number (match-string 1 line))
                  (string-to-number (match-string 2 line))
                  (match-string 3 line)
                  (match-string 4 line)
                  (match-string 5 line)))
          (tmx-command session "attrs" row)))

(defun tmx-errors (session)
  "Return the errors of SESSION's document.
Each is a list of the path of its paragraph or nil, its kind and its detail.
The path is as a command has it, and the detail may be empty."
  (mapcar (lambda (line)
            (string-match "\\`\\([^ ]+\\) \\([^ ]*\\) ?\\(.*\\)\\'" line)
            (let ((path (match-string 1 line)))
              (list (unless (equal path "-") path)
                    (match-string 2 line)
                    (match-string 3 line))))
          (cdr (tmx-command session "errors"))))

;;;; A page in a buffer

(defvar-local tmx--session nil
  "The session whose document the buffer shows.")

(defvar-local tmx--pages nil
  "The pages of the document, each a list of rows.")

(defvar-local tmx--page 1
  "The number of the page that the buffer shows.")

(defvar-local tmx--point nil
  "Where point was put when it last followed the cursor.")

(defvar-local tmx--local-styles nil
  "The style files that the document is opened with.")

(defun tmx--running ()
  "Return the session of the buffer.  Signal an error where there is none."
  (if (and tmx--session (tmx-live-p tmx--session))
      tmx--session
    (user-error "No program runs for this buffer; `g' opens the document anew")))

(defun tmx--open ()
  "Start a program on the buffer's file, and show the first page."
  (when tmx--session
    (tmx-end tmx--session))
  (setq tmx--session
        (tmx-start (concat "./" (file-name-nondirectory buffer-file-name))
                   tmx--local-styles))
  (setq tmx--page 1)
  (tmx--update)
  (set-buffer-modified-p nil))

(defun tmx--update ()
  "Ask for the pages, and show the one with the cursor."
  (setq tmx--pages (tmx-show (tmx--running)))
  (tmx--show-cursor))

(defun tmx--rows-before (page)
  "Return how many rows stand before PAGE."
  (cl-loop for rows in tmx--pages repeat (1- page) sum (length rows)))

(defun tmx--insert-page ()
  "Put the rows of the present page into the buffer, with faces."
  (let ((inhibit-read-only t)
        (modified (buffer-modified-p))
        (first (tmx--rows-before tmx--page)))
    (erase-buffer)
    (dolist (row (nth (1- tmx--page) tmx--pages))
      (insert row "\n"))
    (goto-char (point-min))
    (cl-loop for row from first
             repeat (length (nth (1- tmx--page) tmx--pages))
             do (tmx--put-faces (tmx-runs tmx--session row))
             do (forward-line 1))
    (set-buffer-modified-p modified)
    (setq header-line-format (tmx--header))))

(defun tmx--header ()
  "Return the header line."
  (let ((left (- tmx-script-limit (tmx-session-sent tmx--session))))
    (format "Page %d of %d%s" tmx--page (length tmx--pages)
            (if (< left 1000000)
                "   Few commands are left: save, and open anew with g"
              ""))))

(defun tmx--put-faces (spans)
  "Give the cells SPANS of the present line their faces."
  (pcase-dolist (`(,first ,last ,series ,shape ,color) spans)
    (let ((face (tmx--face series shape color)))
      (when face
        (put-text-property (progn (move-to-column first) (point))
                           (progn (move-to-column last) (point))
                           'face face))))
  (beginning-of-line))

(defun tmx--face (series shape color)
  "Return the face for a font's SERIES and SHAPE and a COLOR, or nil."
  (append (and (equal series "bold") '(bold))
          (and (equal shape "italic") '(italic))
          (and (not (member color '("black" "")))
               (list (list :foreground color)))))

;;;; Cells and places

(defun tmx--place-numbers (place)
  "Return the numbers of PLACE or path, which is written as `/0/2'."
  (mapcar #'string-to-number (split-string place "/" t)))

(defun tmx--before-p (numbers others)
  "Return whether the place NUMBERS stands before the place OTHERS."
  (while (and numbers others (= (car numbers) (car others)))
    (setq numbers (cdr numbers)
          others (cdr others)))
  (and others (or (null numbers) (< (car numbers) (car others)))))

(defun tmx--where (row column)
  "Return the place of the cell at ROW and COLUMN, as numbers."
  (tmx--place-numbers (car (tmx-command tmx--session "where" row column))))

(defun tmx--find-cell (place)
  "Return the row and column of the first cell whose place isn't before PLACE.
There are no commands for that, so this is a binary search with `where'."
  (let* ((width (tmx-session-width tmx--session))
         (low 0)
         (high (* width (tmx--rows-before (1+ (length tmx--pages))))))
    (while (< low high)
      (let ((middle (/ (+ low high) 2)))
        (if (tmx--before-p (tmx--where (/ middle width) (% middle width)) place)
            (setq low (1+ middle))
          (setq high middle))))
    (cons (/ low width) (% low width))))

(defun tmx--page-of-row (row)
  "Return the number of the page with ROW."
  (let ((page 1))
    (while (and (< page (length tmx--pages))
                (>= row (tmx--rows-before (1+ page))))
      (setq page (1+ page)))
    page))

(defun tmx--show-cursor ()
  "Show the page with the cursor, and put point at the cursor's cell."
  (let* ((place (tmx--place-numbers (car (tmx-command tmx--session "cursor"))))
         (cell (tmx--find-cell place)))
    (setq tmx--page (tmx--page-of-row (car cell)))
    (tmx--insert-page)
    (tmx--goto-cell (car cell) (cdr cell))
    (tmx--skip-indent place)))

(defun tmx--goto-cell (row column)
  "Put point at ROW and COLUMN of the document, on the present page."
  (goto-char (point-min))
  (forward-line (- row (tmx--rows-before tmx--page)))
  (move-to-column column))

(defun tmx--skip-indent (place)
  "Move point over cells that have PLACE, as an indent has, to the last of them."
  (while (and (not (eolp)) (equal (tmx--next-place) place))
    (forward-char))
  (setq tmx--point (point)))

(defun tmx--next-place ()
  "Return the place of the cell after the one at point, or nil past the columns."
  (save-excursion
    (forward-char)
    (when (< (current-column) (tmx-session-width tmx--session))
      (tmx--where (tmx--row) (current-column)))))

(defun tmx--row ()
  "Return the row of the document that point is on."
  (min (+ (tmx--rows-before tmx--page) (1- (line-number-at-pos)))
       (1- (tmx--rows-before (1+ (length tmx--pages))))))

(defun tmx--click (row column)
  "Move the cursor to the place of the cell at ROW and COLUMN."
  (tmx-command (tmx--running) "click" row
               (min column (1- (tmx-session-width tmx--session))))
  (tmx--move-point))

(defun tmx--move-cursor ()
  "Move the cursor to the cell at point, where point was moved by other commands."
  (tmx--running)
  (unless (eql (point) tmx--point)
    (tmx-command tmx--session "click" (tmx--row)
                 (min (current-column) (1- (tmx-session-width tmx--session))))))

(defun tmx--move-point ()
  "Put point at the cursor.  The document hasn't changed."
  (let* ((place (tmx--place-numbers (car (tmx-command tmx--session "cursor"))))
         (cell (tmx--find-cell place))
         (page (tmx--page-of-row (car cell))))
    (unless (= page tmx--page)
      (setq tmx--page page)
      (tmx--insert-page))
    (tmx--goto-cell (car cell) (cdr cell))
    (tmx--skip-indent place)))

;;;; Moving

(defun tmx-right (&optional count)
  "Move the cursor COUNT stops on."
  (interactive "p")
  (tmx--move-cursor)
  (dotimes (_ (or count 1))
    (tmx-command tmx--session "right"))
  (tmx--move-point))

(defun tmx-left (&optional count)
  "Move the cursor COUNT stops back."
  (interactive "p")
  (tmx--move-cursor)
  (dotimes (_ (or count 1))
    (tmx-command tmx--session "left"))
  (tmx--move-point))

(defun tmx-down ()
  "Move the cursor to the row below."
  (interactive)
  (tmx--running)
  (tmx--click (1+ (tmx--row)) (current-column)))

(defun tmx-up ()
  "Move the cursor to the row above."
  (interactive)
  (tmx--running)
  (when (= (tmx--row) 0)
    (user-error "First row"))
  (tmx--click (1- (tmx--row)) (current-column)))

(defun tmx-next-page ()
  "Show the next page, and move the cursor there."
  (interactive)
  (tmx--goto-page (1+ tmx--page)))

(defun tmx-previous-page ()
  "Show the page before, and move the cursor there."
  (interactive)
  (tmx--goto-page (1- tmx--page)))

(defun tmx--goto-page (page)
  "Show PAGE, and move the cursor to its first row."
  (tmx--running)
  (unless (<= 1 page (length tmx--pages))
    (user-error "No page %d" page))
  (tmx-command tmx--session "click" (tmx--rows-before page) 0)
  (setq tmx--page page)
  (tmx--insert-page)
  (goto-char (point-min))
  (setq tmx--point (point)))

;;;; Editing

(defun tmx--edit (&rest commands)
  "Do the edits COMMANDS, each a list of words, and show the changed document."
  (when (< (- tmx-script-limit (tmx-session-sent (tmx--running))) 100000)
    (user-error "No commands are left: save, and open anew with `g'"))
  (let (changed)
    (unwind-protect
        (dolist (command commands)
          (apply #'tmx-command tmx--session command)
          (setq changed t))
      (when (and changed (tmx-live-p tmx--session))
        (set-buffer-modified-p t)
        (tmx--update)))))

(defun tmx-type (text)
  "Put TEXT in at the cursor.  A newline in it begins a new paragraph."
  (interactive "sText: ")
  (tmx--move-cursor)
  (let ((commands (mapcar (lambda (paragraph)
                            (list "type" (tmx-quote (tmx-encode paragraph))))
                          (split-string text "\n"))))
    (apply #'tmx--edit (cons (car commands)
                             (cl-loop for command in (cdr commands)
                                      collect '("enter") collect command)))))

(defun tmx-self-insert (count)
  "Put the letter that was typed in at the cursor, COUNT times."
  (interactive "p")
  (tmx-type (make-string count last-command-event)))

(defun tmx-yank ()
  "Put the text that was cut or copied last in at the cursor."
  (interactive)
  (tmx-type (substring-no-properties (current-kill 0))))

(defun tmx-backspace ()
  "Take out what stands before the cursor."
  (interactive)
  (tmx--move-cursor)
  (tmx--edit '("backspace")))

(defun tmx-enter ()
  "Split the paragraph at the cursor."
  (interactive)
  (tmx--move-cursor)
  (tmx--edit '("enter")))

(defun tmx-undo ()
  "Take back the last edit."
  (interactive)
  (tmx--edit '("undo")))

(defun tmx-redo ()
  "Take back the last undo."
  (interactive)
  (tmx--edit '("redo")))

(defvar tmx-edit-mode-map
  (let ((map (make-sparse-keymap)))
    (dotimes (i 95)
      (define-key map (string (+ 32 i)) #'tmx-self-insert))
    (define-key map [remap self-insert-command] #'tmx-self-insert)
    (define-key map [remap undo] #'tmx-undo)
    (define-key map [remap undo-redo] #'tmx-redo)
    (define-key map [remap yank] #'tmx-yank)
    (define-key map (kbd "C-M-_") #'tmx-redo)
    (define-key map (kbd "DEL") #'tmx-backspace)
    (define-key map (kbd "RET") #'tmx-enter)
    map)
  "Keys of `tmx-edit-mode'.")

(define-minor-mode tmx-edit-mode
  "Change a TeXmacs document at the cursor.
\\{tmx-edit-mode-map}"
  :lighter " Edit"
  (unless (and tmx--session (tmx-live-p tmx--session))
    (when tmx-edit-mode
      (setq tmx-edit-mode nil)
      (tmx--running))))

;;;; Files

(defun tmx--save ()
  "Save the document as the buffer's file.  Return t, since the file is written.
The program takes no name with a space or beyond ASCII.  Such a file is saved
under another name and renamed."
  (let* ((name (concat "./" (file-name-nondirectory buffer-file-name)))
         (plain (string-match-p "\\`[!-~]\\{1,255\\}\\'" name))
         (scheme (string-match-p "\\.s\\(?:cm\\|tm\\)\\'" name))
         (other (concat (make-temp-name "./tmx-") (if scheme ".scm" ".tm"))))
    (tmx-command (tmx--running) "save" (if plain name other))
    (unless plain
      (rename-file other name t)))
  (set-visited-file-modtime)
  (set-buffer-modified-p nil)
  t)

(defun tmx--revert (&optional _ignore-auto noconfirm)
  "Open the document anew, and ask before unless NOCONFIRM."
  (when (or noconfirm
            (not (buffer-modified-p))
            (yes-or-no-p "Open the document anew and lose what wasn't saved? "))
    (tmx-edit-mode -1)
    (tmx--open)))

(defun tmx-add-style (file)
  "Open the document anew, with the style FILE besides."
  (interactive "fStyle file: ")
  (let ((styles (append tmx--local-styles (list (expand-file-name file)))))
    (when (buffer-modified-p)
      (user-error "Save the document first"))
    (setq tmx--local-styles styles)
    (tmx--open)))

(defun tmx--leave ()
  "End the program, and put the file's own text into the buffer."
  (when tmx--session
    (tmx-end tmx--session)
    (setq tmx--session nil)
    (let ((inhibit-read-only t))
      (erase-buffer)
      (insert-file-contents buffer-file-name)
      (set-buffer-modified-p nil))))

(defun tmx--end ()
  "End the program of the buffer."
  (when tmx--session
    (tmx-end tmx--session)))

;;;; Errors

(defvar-local tmx--document nil
  "The buffer whose errors are listed.")

(defun tmx-list-errors ()
  "List the errors of the document, with their places."
  (interactive)
  (let ((errors (tmx-errors (tmx--running)))
        (document (current-buffer)))
    (with-current-buffer (get-buffer-create "*tmx errors*")
      (tmx-errors-mode)
      (setq tmx--document document)
      (setq tabulated-list-entries
            (cl-loop for (path kind detail) in errors
                     for number from 0
                     collect (list (cons number path)
                                   (vector (or path "-") kind detail))))
      (tabulated-list-print)
      (display-buffer (current-buffer)))))

(defun tmx-visit-error ()
  "Go to the paragraph of the error on this line."
  (interactive)
  (let ((path (cdr (tabulated-list-get-id))))
    (unless path
      (user-error "This error stands in no paragraph"))
    (pop-to-buffer tmx--document)
    (tmx--running)
    (let ((cell (tmx--find-cell (append (tmx--place-numbers path) '(0)))))
      (tmx--click (car cell) (cdr cell)))))

(defvar tmx-errors-mode-map
  (let ((map (make-sparse-keymap)))
    (define-key map (kbd "RET") #'tmx-visit-error)
    map)
  "Keys of `tmx-errors-mode'.")

(define-derived-mode tmx-errors-mode tabulated-list-mode "TeXmacs errors"
  "List of the errors of a TeXmacs document.
\\{tmx-errors-mode-map}"
  (setq tabulated-list-format [("Paragraph" 16 nil) ("Kind" 20 nil)
                               ("Detail" 0 nil)])
  (tabulated-list-init-header))

;;;; The mode

(defvar tmx-mode-map
  (let ((map (make-sparse-keymap)))
    (define-key map [remap forward-char] #'tmx-right)
    (define-key map [remap backward-char] #'tmx-left)
    (define-key map [remap right-char] #'tmx-right)
    (define-key map [remap left-char] #'tmx-left)
    (define-key map [remap next-line] #'tmx-down)
    (define-key map [remap previous-line] #'tmx-up)
    (define-key map [remap scroll-up-command] #'tmx-next-page)
    (define-key map [remap scroll-down-command] #'tmx-previous-page)
    (define-key map (kbd "C-c C-e") #'tmx-edit-mode)
    (define-key map (kbd "C-c C-l") #'tmx-list-errors)
    (define-key map (kbd "C-c C-y") #'tmx-add-style)
    map)
  "Keys of `tmx-mode'.")

;;;###autoload
(define-derived-mode tmx-mode special-mode "TeXmacs"
  "Show a TeXmacs document page by page, as the program tmx lays it out.
\\<tmx-mode-map>\\[tmx-edit-mode] begins and ends editing.
Where the program doesn't open the file, the buffer keeps the file's text.

\\{tmx-mode-map}"
  (unless tmx--local-styles
    (setq tmx--local-styles (mapcar #'expand-file-name tmx-styles)))
  (when buffer-file-name
    (condition-case problem
        (tmx--open)
      (error
       (setq tmx--session nil)
       (message "%s" (error-message-string problem)))))
  (when tmx--session
    (setq buffer-undo-list t)
    (setq-local revert-buffer-function #'tmx--revert)
    (auto-save-mode -1)
    (add-hook 'write-contents-functions #'tmx--save nil t)
    (add-hook 'change-major-mode-hook #'tmx--leave nil t)
    (add-hook 'kill-buffer-hook #'tmx--end nil t)))

;;;###autoload
(add-to-list 'auto-mode-alist '("\\.tm\\'" . tmx-mode))

(provide 'tmx)

;;; tmx.el ends here
