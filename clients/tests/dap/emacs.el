;; Debugs $PROGRAM by the set-up of dap-mode that $SETUP holds, and prints where the editor stands.
(require 'package)
(package-initialize)
(setq lsp-log-io nil)
(find-file (getenv "PROGRAM"))
(load (getenv "SETUP"))

(defun wait (seconds)
  (let ((until (+ (float-time) seconds)))
    (while (< (float-time) until) (accept-process-output nil 0.05))))

(defun wait-for (holds)
  (let ((until (+ (float-time) 20)))
    (while (and (< (float-time) until) (not (funcall holds))) (accept-process-output nil 0.05))))

(defun frame () (dap--debug-session-active-frame (dap--cur-session)))

(defun place ()
  (format "%s %s" (gethash "name" (frame)) (gethash "line" (frame))))

(defun tell (what) (princ (format "%s: %s\n" what (place))))

(defun console (text)
  (with-current-buffer "*dap-ui-repl*" (dap-ui-input-sender text text))
  (wait 1.5))

(dap-debug (list :type "rewind" :request "launch" :name "Rewind" :program (getenv "PROGRAM")))
(wait-for (lambda () (and (dap--cur-session) (frame))))
(tell "start")
(dap-next (dap--cur-session))
(wait 1.5)
(tell "next")
(dap-ui-repl)
(console "reverse-next")
(tell "reverse-next")
(console "continue")
(console "why")
(princ (with-current-buffer "*dap-ui-repl*" (buffer-string)))
(dap-disconnect (dap--cur-session))
(wait 0.5)
