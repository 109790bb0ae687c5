;;; tmx-test.el --- Tests of tmx.el against a built program  -*- lexical-binding: t; -*-

;;; Commentary:

;; The environment variable TMX names the program.  TMX_ROWS names a folder of
;; row files, whose sessions are tried too.

;;; Code:

(require 'ert)
(require 'cl-lib)
(require 'tmx)

(defconst tmx-test-program
  (expand-file-name (or (getenv "TMX") "../../crates/tmx/out/tmx"))
  "The program.")

(setq tmx-program tmx-test-program
      tmx-time-limit 120
      create-lockfiles nil
      make-backup-files nil)

(defmacro tmx-test-in-folder (&rest body)
  "Run BODY in a new folder."
  (declare (indent 0) (debug t))
  `(let* ((folder (make-temp-file "tmx-test" t))
          (default-directory (file-name-as-directory folder)))
     (unwind-protect
         (progn ,@body)
       (delete-directory folder t))))

(defun tmx-test-write (name text)
  "Write TEXT into the file NAME, in UTF-8 where it has several bytes a letter."
  (let ((coding-system-for-write (if (multibyte-string-p text) 'utf-8-unix 'binary)))
    (when (file-name-directory name)
      (make-directory (file-name-directory name) t))
    (write-region text nil name nil 'silent))
  name)

(defun tmx-test-read (name)
  "Return the bytes of the file NAME."
  (with-temp-buffer
    (set-buffer-multibyte nil)
    (insert-file-contents-literally name)
    (buffer-string)))

(defmacro tmx-test-session (variable text &rest body)
  "Bind VARIABLE to a session on a document TEXT, and run BODY."
  (declare (indent 2) (debug (symbolp form body)))
  `(tmx-test-in-folder
     (let ((,variable (tmx-start (tmx-test-write "d.scm" ,text))))
       (unwind-protect
           (progn ,@body)
         (tmx-end ,variable)))))

(defmacro tmx-test-buffer (text &rest body)
  "Visit a file with TEXT in `tmx-mode', and run BODY in its buffer."
  (declare (indent 1) (debug t))
  `(tmx-test-in-folder
     (let ((auto-mode-alist '(("\\.scm\\'" . tmx-mode))))
       (with-current-buffer (find-file-noselect (tmx-test-write "d.scm" ,text))
         (unwind-protect
             (progn ,@body)
           (set-buffer-modified-p nil)
           (kill-buffer))))))

(defun tmx-test-signal (function)
  "Return the error that FUNCTION signals."
  (condition-case problem
      (progn (funcall function) nil)
    (error problem)))

(defun tmx-test-refused (session line reply)
  "Check that SESSION's reply to LINE is the one line REPLY."
  (should (equal (list line reply) (cons line (tmx-ask session line)))))

;;;; Text

(ert-deftest tmx-test-encode ()
  (dolist (pair '(("abc" . "abc") ("a<b>" . "a<less>b<gtr>") ("α≤Ω" . "<alpha><leq><Omega>")
                  ("é" . "\xe9") ("Œœßẞ" . "\xd7\xf7\xff\xdf") ("×÷" . "<times><#F7>")
                  ("中" . "<#4E2D>") ("“”" . "\x10\x11") ("`" . "`") ("😀" . "<#1F600>") ("" . "")))
    (should (equal (tmx-encode (car pair)) (string-to-unibyte (cdr pair)))))
  (dolist (text '("a\n" "\t" "\u0085"))
    (should-error (tmx-encode text) :type 'tmx-error))
  (should (equal (tmx-quote "a\"b\\c") "\"a\\\"b\\\\c\"")))

(ert-deftest tmx-test-characters-as-shown ()
  (let* ((characters (append (mapcar #'car tmx--characters) (mapcar #'car tmx--symbols)
                             '(?中 ?÷ #x2028 #x10ffff #xa0)))
         (texts (mapcar (lambda (character) (format "x%cx" character)) characters)))
    (tmx-test-session session
        (concat "(document " (mapconcat (lambda (text) (tmx-quote (tmx-encode text))) texts " ") ")")
      (should (equal (apply #'append (tmx-show session)) texts)))))

;;;; Commands

(ert-deftest tmx-test-edits ()
  (pcase-dolist (`(,line ,tree)
                 '(("assign /1 \"x\"" "(document \"abc\" \"x\")")
                   ("insert /0 1 \"xy\"" "(document \"axybc\" (em \"d\"))")
                   ("insert / 1 (tuple \"p\" \"q\")" "(document \"abc\" \"p\" \"q\" (em \"d\"))")
                   ("remove /0 0 2" "(document \"c\" (em \"d\"))")
                   ("split / 0 1" "(document \"a\" \"bc\" (em \"d\"))")
                   ("assign-node /1 strong" "(document \"abc\" (strong \"d\"))")
                   ("insert-node /0 1 (f \"x\" \"y\")" "(document (f \"x\" \"abc\" \"y\") (em \"d\"))")
                   ("remove-node /1 0" "(document \"abc\" \"d\")")))
    (tmx-test-session session "(document \"abc\" (em \"d\"))"
      (should (equal (tmx-ask session line) '("ok")))
      (should (equal (tmx-ask session "tree") (list tree)))
      (should (equal (tmx-ask session "undo") '("ok")))
      (should (equal (tmx-ask session "tree") '("(document \"abc\" (em \"d\"))")))
      (should (equal (tmx-ask session "redo") '("ok")))
      (should (equal (tmx-ask session "tree") (list tree)))))
  (tmx-test-session session "(document \"ab\" \"c\")"
    (should (equal (tmx-ask session "join / 0") '("ok")))))

(ert-deftest tmx-test-replies ()
  (tmx-test-in-folder
    (tmx-test-write "a.tm" "an <em|important> note\n\n<g>\n")
    (let ((session (tmx-start "a.tm")))
      (should (equal (tmx-show session) '(("an important note" "<g>"))))
      (should (equal (tmx-command session "page" 1) '("page 1" "an important note" "<g>")))
      (should (equal (tmx-runs session 0) '((0 3 "medium" "right" "black") (3 12 "medium" "italic" "black")
                                            (12 17 "medium" "right" "black"))))
      (should (equal (tmx-errors session) '(("/1" "undefined-tag" "g"))))
      (should (equal (tmx-command session "where" 0 5) '("/0/1/0/2")))
      (should (equal (tmx-command session "click" 0 5) '("ok")))
      (should (equal (tmx-command session "cursor") '("/0/1/0/2")))
      (should (equal (tmx-command session "right") '("ok")))
      (should (equal (tmx-command session "left") '("ok")))
      (should (equal (tmx-command session "go" "/0/0/1") '("ok")))
      (should (equal (tmx-command session "type" "\"<alpha>\"") '("ok")))
      (should (equal (tmx-command session "backspace") '("ok")))
      (should (equal (tmx-command session "enter") '("ok")))
      (should (string-prefix-p "work " (car (tmx-command session "work"))))
      (should (equal (tmx-command session "at" "a") '("ok")))
      (should (equal (tmx-command session "save" "b.tm") '("saved 39")))
      (should (equal (tmx-test-read "b.tm") "<concat|a>\n\nn <em|important> note\n\n<g>\n"))
      (tmx-end session))))

;;;; Refusals

(ert-deftest tmx-test-refusals ()
  (tmx-test-session session "(document \"a<beta>b\" (em \"c\"))"
    (pcase-dolist (`(,line ,reply)
                   '(("shw" "no unknown") ("show 1" "no args 4") ("page 4294967296" "no args 14")
                     ("page x" "no args 5")
                     ("attrs" "no args 5") ("attrs x" "no args 6") ("errors x" "no args 6") ("quit now" "no args 4")
                     ("assign 0 \"x\"" "no path 7") ("go /1/" "no path 6") ("assign /0 (em \"c\"" "no tree unclosed 17")
                     ("assign /0 (f a)" "no tree stray 13") ("assign /0 \"\\n\"" "no tree bad-escape 12")
                     ("assign /0 ()" "no tree bad-label 11") ("assign /0 \"<b c>\"" "no tree bad-text 13")
                     ("assign /0 \"x\" y" "no tree after 14") ("at x" "no buffer") ("undo" "no undo") ("redo" "no redo")
                     ("undo-at 1" "no undo")
                     ("assign /5 \"x\"" "no path-end 0") ("insert /0 0 (em)" "no not-string")
                     ("insert /1 0 \"x\"" "no not-node") ("insert /0 9 \"x\"" "no bad-place 8") ("join / 0" "no differ")
                     ("go /0/3" "no cuts-symbol 3") ("backspace" "no start") ("left" "no start")
                     ("where 9 0" "no cell 2 80") ("attrs 9" "no cell 2 80") ("page 0" "no page 1")
                     ("page 2" "no page 1")
                     ("save none/x.tm" "no store") ("type (f)" "no args 5")))
      (tmx-test-refused session line reply))
    (should (equal (tmx-test-signal (lambda () (tmx-command session "left"))) '(tmx-refused "no start")))
    (should (equal (error-message-string '(tmx-refused "no start")) "Refused: \"no start\"")))
  (tmx-test-session session "(document \"a\" (em \"c\"))"
    (tmx-command session "go" "/1/0/1")
    (tmx-test-refused session "right" "no end")
    (tmx-test-refused session "enter" "no paragraph")
    (tmx-command session "go" "/1/1")
    (tmx-test-refused session "type \"x\"" "no text"))
  (tmx-test-session session "(em \"c\")"
    (tmx-test-refused session "save x.tm" "no form")))

(ert-deftest tmx-test-limits ()
  (let ((long (make-string 600000 ?a)))
    (tmx-test-session session (format "(document \"%s\" \"%s\")" long long)
      (tmx-test-refused session "join / 0" "no too-long 1200000")
      (tmx-test-refused session (make-string 1048577 ?x) "no long 1048577")))
  (tmx-test-session session (concat "(document" (apply #'concat (make-list 65535 "\"a\"")) ")")
    (tmx-test-refused session "insert / 0 (tuple \"b\")" "no too-wide 65536"))
  (tmx-test-session session (concat (apply #'concat (make-list 399 "(f")) "\"a\"" (make-string 399 ?\)))
    (tmx-test-refused session "insert-node / 0 (f)" "no too-deep 401")
    (tmx-test-refused session (concat "assign /0 " (apply #'concat (make-list 400 "(f")) "\"a\"" (make-string 400 ?\)))
                      "no tree limit depth 401"))
  (let ((big (concat "\"" (make-string 999999 ?a) "\"")))
    (tmx-test-session session (concat "(document" (apply #'concat (make-list 7 big))
                                      "\"" (make-string 999998 ?a) "\")")
      (tmx-test-refused session "insert / 0 (tuple \"b\")" "no too-big 8000002"))))

(ert-deftest tmx-test-lines ()
  (tmx-test-session session "(document \"a\")"
    (dolist (line '("" "a\nb" "tree\n" "tree\r" "quit"))
      (should (eq (car (tmx-test-signal (lambda () (tmx-ask session line)))) 'tmx-error)))
    (should (equal (tmx-ask session "tree") '("(document \"a\")")))))

;;;; Statuses

(defun tmx-test-ended (file &rest styles)
  "Return the status and line with which the program refuses FILE and STYLES."
  (let ((problem (tmx-test-signal (lambda () (tmx-start file styles)))))
    (should (eq (car problem) 'tmx-ended))
    (cdr problem)))

(ert-deftest tmx-test-statuses ()
  (tmx-test-in-folder
    (tmx-test-write "d.scm" "(document \"a\")")
    (tmx-test-write "t.tm" "<em|imp")
    (make-directory "folder")
    (let ((usage "usage: tmx [--width N] [--height N] FILE [STYLE]..."))
      (should (equal (let ((tmx-width 19)) (tmx-test-ended "d.scm")) (list 2 usage)))
      (should (equal (tmx-test-ended "d.scm" "a/d.scm") (list 2 usage)))
      (should (equal (apply #'tmx-test-ended (cl-loop for i below 65 collect (format "%d.scm" i))) (list 2 usage))))
    (should (equal (tmx-test-ended "no.tm") '(3 "missing no.tm")))
    (should (equal (tmx-test-ended "no/é.tm") '(3 "missing no/é.tm")))
    (should (equal (tmx-test-ended "a\n/b") '(3 "missing a\n/b")))
    (should (equal (tmx-test-ended "t.tm") '(4 "refused t.tm unclosed 7")))
    (should (equal (tmx-test-ended "folder") '(5 "store folder")))
    (should (equal (tmx-test-wrapped "exec TMX \"$@\" < .") '(6 "input")))
    (when (file-exists-p "/dev/full")
      (should (equal (tmx-test-wrapped "exec TMX \"$@\" > /dev/full") '(7 nil))))
    (should (eq (car (let ((tmx-program "./none")) (tmx-test-signal (lambda () (tmx-start "d.scm")))))
                'file-missing))))

(defun tmx-test-wrapped (line)
  "Return how a program ends that the shell's LINE starts."
  (tmx-test-write "wrapper" (concat "#!/bin/sh\n" (string-replace "TMX" tmx-test-program line) "\n"))
  (set-file-modes "wrapper" #o700)
  (let ((tmx-program (expand-file-name "wrapper")))
    (tmx-test-ended "d.scm")))

(ert-deftest tmx-test-memory ()
  (tmx-test-in-folder
    (tmx-test-write "d.scm" (make-string 15000000 ?a))
    (should (equal (tmx-test-wrapped "ulimit -v 12000; exec TMX \"$@\"") '(8 "memory")))))

(ert-deftest tmx-test-script-long ()
  (tmx-test-session session "(document \"a\")"
    (dotimes (_ 15)
      (tmx-ask session (make-string 1048575 ?x)))
    (tmx-ask session (make-string (- tmx-script-limit (tmx-session-sent session) 8) ?x))
    (should (equal (tmx-ask session "cursor") '("/0/0")))
    (should (equal (tmx-test-signal (lambda () (tmx-ask session "tree"))) '(tmx-ended 9 "script-long")))
    (should (eq (car (tmx-test-signal (lambda () (tmx-ask session "tree")))) 'tmx-ended))))

(ert-deftest tmx-test-killed ()
  (tmx-test-session session "(document \"a\")"
    (signal-process (tmx-session-process session) 'SIGKILL)
    (should (equal (tmx-test-signal (lambda () (tmx-ask session "show"))) '(tmx-ended -9 nil)))
    (should-not (tmx-live-p session))))

(ert-deftest tmx-test-time-limit ()
  (tmx-test-session session "(document \"a\")"
    (signal-process (tmx-session-process session) 'SIGSTOP)
    (let ((tmx-time-limit 0.3))
      (should (equal (tmx-test-signal (lambda () (tmx-ask session "show"))) '(tmx-timed-out))))
    (should-not (tmx-live-p session))))

;;;; Replies that look like others, and large ones

(ert-deftest tmx-test-rows-like-replies ()
  (dolist (texts (list (append '("/0/0") (make-list 12 "no page 3") '("page 2" "memory" "/0/0"))
                       (append '("/0/0") (make-list 4 "no page 1"))
                       (make-list 10 "no page 2") (make-list 9 "/0/0") (make-list 6 "page 2")
                       '("page 1" "page 2" "ok" "no path 3" "page 1" "errors 0" "script-long")))
    (let ((tmx-height 5))
      (tmx-test-session session (concat "(document " (mapconcat #'tmx-quote texts " ") ")")
        (should (equal (apply #'append (tmx-show session)) texts))
        (should (equal (tmx-command session "page" 1)
                       (cons "page 1" (cl-subseq texts 0 (min 5 (length texts))))))
        (should (equal (tmx-ask session "undo") '("no undo")))))))

(ert-deftest tmx-test-ten-megabytes ()
  (let ((quotes (apply #'concat (make-list 999000 "\\\""))))
    (tmx-test-session session (concat "(document" (apply #'concat (make-list 6 (format " \"%s\"" quotes))) ")")
      (should (> (length (car (tmx-ask session "tree"))) 10000000))
      (should (equal (tmx-ask session "cursor") '("/0/0"))))))

(ert-deftest tmx-test-odd-names ()
  (tmx-test-in-folder
    (dolist (name '("a b.scm" "-x.scm" "--help.scm" "gen:1:3.scm" "é中.scm" "q\"u'o$te.scm" "a\nb.scm" "a;b|c.scm"))
      (let ((session (tmx-start (tmx-test-write name "(document \"here\")"))))
        (should (equal (tmx-show session) '(("here"))))
        (tmx-end session)))))

;;;; Sessions of row files

(defun tmx-test-unescape (text)
  "Return the bytes that TEXT with escapes stands for."
  (replace-regexp-in-string
   "\\\\\\(x[0-9a-f][0-9a-f]\\|.\\)"
   (lambda (escape)
     (pcase (aref escape 1)
       (?x (unibyte-string (string-to-number (substring escape 2) 16)))
       (?n "\n") (?r "\r") (?t "\t") (?s " ") (?\\ "\\")))
   text t t))

(defun tmx-test-add-line (text rest)
  "Return TEXT, which may be nil, with what stands after a mark, REST, put to it."
  (if (string-match "\\`\\*\\([0-9]+\\) \\(\\(?:.\\|\n\\)*\\)\\'" rest)
      (let ((count (string-to-number (match-string 1 rest)))
            (piece (tmx-test-unescape (match-string 2 rest))))
        (concat text (apply #'concat (make-list count piece))))
    (concat text (and text "\n")
            (cond ((string-prefix-p "\\ " rest) (tmx-test-unescape (substring rest 2)))
                  ((equal rest "") "")
                  (t (substring rest 1))))))

(defun tmx-test-rows (file)
  "Return the sessions of the row FILE: words, files and script of each.
Sessions with large repetitions are left out."
  (let (rows kind words files script large)
    (dolist (line (append (split-string (tmx-test-read file) "\n") '("")))
      (let ((rest (if (equal line "") "" (substring line 1))))
        (cond ((equal line "")
               (when (and (equal kind "run") (or files script) (not large))
                 (push (list words (nreverse files) (or script "")) rows))
               (setq files nil script nil large nil))
              ((string-match-p "\\`.\\*[0-9]\\{5,\\}" line)
               (setq large t))
              ((memq (aref line 0) '(?# ?<)))
              ((eq (aref line 0) ?|)
               (when files
                 (setcdr (car files) (tmx-test-add-line (cdar files) rest))))
              ((eq (aref line 0) ?>)
               (when (equal kind "run")
                 (setq script (tmx-test-add-line script rest))))
              ((string-match "\\`file \\(.*\\)" line)
               (push (cons (decode-coding-string (match-string 1 line) 'utf-8) nil) files))
              ((string-prefix-p "saved " line))
              (t
               (setq kind (car (split-string line " "))
                     words (cdr (split-string line " " t)))))))
    (nreverse rows)))

(defun tmx-test-plain-row-p (row)
  "Return whether ROW has words as of `tmx-start', and a script of plain lines."
  (pcase-let ((`(,words _ ,script) row))
    (and words
         (not (cl-some (lambda (word) (string-match-p "\\`-\\|\"\\|:" word)) words))
         (< (length script) 1000000)
         (not (string-match-p "\r\r" script)))))

(defun tmx-test-piped (words script)
  "Return what the program with WORDS writes where SCRIPT is its input."
  (with-temp-buffer
    (set-buffer-multibyte nil)
    (insert script)
    (let ((coding-system-for-read 'binary)
          (coding-system-for-write 'binary))
      (apply #'call-process-region nil nil tmx-program t '(t nil) nil words))
    (buffer-string)))

(defun tmx-test-asked (words script)
  "Return the replies to the lines of SCRIPT in a session with the files WORDS."
  (let (replies session)
    (condition-case problem
        (progn
          (setq session (tmx-start (car words) (cdr words)))
          (cl-loop for ended in (split-string script "\n")
                   for line = (string-remove-suffix "\r" ended)
                   until (equal line "quit")
                   unless (equal line "")
                   do (setq replies (append (reverse (tmx-ask session line)) replies))))
      (tmx-ended (push (nth 2 problem) replies)))
    (when session
      (tmx-end session))
    (mapconcat (lambda (reply) (concat reply "\n")) (nreverse replies) "")))

(ert-deftest tmx-test-sessions ()
  (let ((folder (file-name-as-directory
                 (expand-file-name (or (getenv "TMX_ROWS") "../../crates/tx_rows/data"))))
        (count 0))
    (skip-unless (file-directory-p folder))
    (dolist (file (directory-files folder t "\\.rows\\'"))
      (unless (string-suffix-p "wrong.rows" file)
        (dolist (row (cl-remove-if-not #'tmx-test-plain-row-p (tmx-test-rows file)))
          (cl-incf count)
          (pcase-let ((`(,words ,files ,script) row))
            (cl-flet ((tried (session)
                        (tmx-test-in-folder
                          (pcase-dolist (`(,name . ,text) files)
                            (tmx-test-write name (or text "")))
                          (funcall session words script))))
              (let ((piped (tried #'tmx-test-piped))
                    (asked (tried #'tmx-test-asked)))
                (unless (equal (string-to-multibyte piped) (string-to-multibyte asked))
                  (ert-fail (list (file-name-nondirectory file) words script piped asked)))))))))
    (message "%d sessions of row files" count)
    (should (> count 100))))

;;;; The mode

(ert-deftest tmx-test-mode-shows-a-page ()
  (tmx-test-buffer (concat "(document \"plain\" (concat (em \"i\") (strong \"b\")"
                           " (with \"color\" \"red\" \"<#4E2D>\") \"x\") (g))")
    (should (eq major-mode 'tmx-mode))
    (should buffer-read-only)
    (should-not (buffer-modified-p))
    (should (equal (buffer-string) "plain\nib中x\n<g>\n"))
    (should (= (point) 1))
    (should-error (insert "x"))
    (let ((start (save-excursion (goto-char 1) (line-beginning-position 2))))
      (should (equal (get-text-property start 'face) '(italic)))
      (should (equal (get-text-property (+ start 1) 'face) '(bold)))
      (should (equal (get-text-property (+ start 2) 'face) '((:foreground "red"))))
      (should-not (get-text-property (+ start 3) 'face)))))

(ert-deftest tmx-test-mode-moves ()
  (tmx-test-buffer "(document \"ab\" (center \"cd\"))"
    (tmx-right)
    (should (= (point) 2))
    (tmx-right 2)
    (should (looking-at "cd"))
    (tmx-left)
    (should (= (point) 3))
    (should (eq (car (tmx-test-signal (lambda () (tmx-left 3)))) 'tmx-refused))
    (tmx-down)
    (should (= (line-number-at-pos) 2))
    (tmx-up)
    (should (= (line-number-at-pos) 1))
    (should-error (tmx-up) :type 'user-error)))

(ert-deftest tmx-test-mode-pages ()
  (let ((tmx-height 5))
    (tmx-test-buffer (format "(document %s)" (mapconcat (lambda (i) (format "\"row %d\"" i))
                                                        (number-sequence 0 11) " "))
      (should (equal header-line-format "Page 1 of 3"))
      (tmx-next-page)
      (should (looking-at "row 5\n"))
      (should (equal (tmx-ask tmx--session "cursor") '("/5/0")))
      (tmx-left)
      (should (equal header-line-format "Page 1 of 3"))
      (should (eolp))
      (tmx-down)
      (should (= tmx--page 2))
      (tmx-next-page)
      (should-error (tmx-next-page) :type 'user-error)
      (tmx-previous-page)
      (should (= tmx--page 2)))))

(defun tmx-test-press (keys)
  "Call what KEYS are bound to, one after the other."
  (dolist (key (listify-key-sequence (kbd keys)))
    (let ((last-command-event key)
          (prefix-arg nil)
          (current-prefix-arg nil))
      (call-interactively (key-binding (vector key))))))

(ert-deftest tmx-test-mode-edits ()
  (tmx-test-buffer "(document \"ab\")"
    (should-not (eq (key-binding "x") #'tmx-self-insert))
    (tmx-edit-mode)
    (should buffer-read-only)
    (tmx-right)
    (tmx-test-press "x q g α é")
    (should (equal (buffer-string) "axqgαéb\n"))
    (should (buffer-modified-p))
    (should (looking-at "b"))
    (tmx-test-press "DEL RET y")
    (should (equal (buffer-string) "axqgα\nyb\n"))
    (tmx-undo)
    (tmx-undo)
    (should (equal (buffer-string) "axqgαb\n"))
    (tmx-redo)
    (should (equal (buffer-string) "axqgα\nb\n"))
    (goto-char (point-min))
    (tmx-test-press "< DEL")
    (should (equal (buffer-string) "axqgα\nb\n"))
    (end-of-line)
    (tmx-test-press "ß")
    (should (equal (buffer-string) "axqgαß\nb\n"))
    (tmx-undo)
    (goto-char (point-min))
    (forward-line)
    (kill-new "one \"two\"\nthree")
    (tmx-yank)
    (should (equal (buffer-string) "axqgα\none \"two\"\nthreeb\n"))
    (should-error (tmx-type "\t") :type 'tmx-error)
    (save-buffer)
    (should-not (buffer-modified-p))
    (should (equal (tmx-test-read "d.scm") "(document \"axqg<alpha>\" \"one \\\"two\\\"\" \"threeb\")\n"))
    (tmx-test-press "z")
    (revert-buffer t t)
    (should (equal (buffer-string) "axqgα\none \"two\"\nthreeb\n"))
    (should-not tmx-edit-mode)))

(ert-deftest tmx-test-mode-saves-odd-names ()
  (tmx-test-in-folder
    (let ((auto-mode-alist '(("\\.tm\\'" . tmx-mode))))
      (with-current-buffer (find-file-noselect (tmx-test-write "an é name.tm" "a\n"))
        (tmx-type "<x> ")
        (save-buffer)
        (should (equal (tmx-test-read "an é name.tm") "\\<less\\>x\\<gtr\\> a\n"))
        (should (equal (directory-files "." nil "^[^.]") '("an é name.tm")))
        (kill-buffer)))))

(ert-deftest tmx-test-mode-errors ()
  (tmx-test-buffer "(document (style \"none\") (body (document \"a\" \"b\" (g \"c\"))))"
    (tmx-list-errors)
    (let ((document (current-buffer)))
      (with-current-buffer "*tmx errors*"
        (should (string-match-p "undefined-style +none\n.*/1/0/2 +undefined-tag +g" (buffer-string)))
        (goto-char (point-min))
        (should-error (tmx-visit-error) :type 'user-error)
        (forward-line)
        (tmx-visit-error))
      (set-buffer document)
      (should (= (line-number-at-pos) 3))
      (should (equal (tmx-ask tmx--session "cursor") '("/1/0/2/0/0"))))))

(ert-deftest tmx-test-mode-styles ()
  (tmx-test-buffer "(document (style \"s\") (body (document (hi \"x\"))))"
    (should (equal (buffer-string) "<hi|x>\n"))
    (tmx-test-write "s.scm" "(document (assign \"hi\" (macro \"x\" (concat \"Hi \" (arg \"x\")))))")
    (tmx-add-style "s.scm")
    (should (equal (buffer-string) "Hi x\n"))))

(ert-deftest tmx-test-mode-without-a-tree ()
  (tmx-test-buffer "(document"
    (should (eq major-mode 'tmx-mode))
    (should (equal (buffer-string) "(document"))
    (should buffer-read-only)
    (should-error (tmx-right) :type 'user-error)))

(ert-deftest tmx-test-mode-leaves ()
  (tmx-test-buffer "(document \"a\")"
    (let ((session tmx--session))
      (fundamental-mode)
      (should-not (tmx-live-p session))
      (should (equal (buffer-string) "(document \"a\")")))))

(ert-deftest tmx-test-mode-killed-program ()
  (tmx-test-buffer "(document \"a\")"
    (signal-process (tmx-session-process tmx--session) 'SIGKILL)
    (should-error (progn (sleep-for 0.2) (tmx-right)) :type 'user-error)
    (should-error (tmx-edit-mode) :type 'user-error)
    (should-not tmx-edit-mode)
    (revert-buffer t t)
    (tmx-right)
    (should (= (point) 2))))

(ert-deftest tmx-test-mode-empty ()
  (tmx-test-buffer "(document (body (document)))"
    (should (equal (buffer-string) ""))
    (should-error (tmx-right))))

(provide 'tmx-test)

;;; tmx-test.el ends here
