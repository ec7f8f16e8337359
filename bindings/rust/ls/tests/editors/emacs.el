;; Drives rnix-ls from Emacs with eglot: emacs --batch -f package-initialize -l init.el -l emacs.el, beside copies of example.nix and packages.nix, with an
;; init.el that names rnix-ls.
(setq eglot-sync-connect 20 eglot-confirm-server-initiated-edits nil make-backup-files nil create-lockfiles nil)

(defun check (wanted found what)
  (unless (equal wanted found)
    (error "%s: wanted %S, found %S" what wanted found)))

(defun wait-for (what get)
  "Wait until GET returns a value."
  (let ((end (+ (float-time) 20)) value)
    (while (not (setq value (funcall get)))
      (when (> (float-time) end) (error "no %s" what))
      (accept-process-output nil 0.02))
    value))

(defun go-to (text)
  "Go to the first place of TEXT."
  (goto-char (point-min))
  (search-forward text)
  (goto-char (match-beginning 0)))

(defun message-is (wanted)
  "Wait until the only diagnostic has the message WANTED."
  (wait-for wanted
            (lambda ()
              (flymake-start)
              (equal (list wanted)
                     (mapcar (lambda (it) (substring-no-properties (flymake-diagnostic-text it))) (flymake-diagnostics))))))

(defun changed ()
  "Send the changes of the buffer."
  (eglot--signal-textDocument/didChange))

(defun ask (method &rest params)
  (changed)
  (jsonrpc-request (eglot--current-server-or-lose) method (append (eglot--TextDocumentPositionParams) params)))

(defun act (title kind)
  "Apply the first code action of KIND at point, which has TITLE."
  (let* ((place (eglot--pos-to-lsp-position))
         (actions (ask :textDocument/codeAction :range (list :start place :end place) :context (list :diagnostics [] :only (vector kind)))))
    (check title (plist-get (aref actions 0) :title) "the code action")
    (eglot--apply-workspace-edit (plist-get (aref actions 0) :edit))))

(defun run-across ()
  "Go to another file, complete after `builtins.', and apply a code action."
  (find-file "packages.nix")
  (wait-for "a server" (lambda () (ignore-errors (eglot--current-server-or-lose))))
  (go-to "example.nix")
  (xref-find-definitions "./example.nix")
  (check "example.nix" (file-name-nondirectory buffer-file-name) "the other file")
  (check 2 (line-number-at-pos) "the parameters of the other file")

  (find-file "packages.nix")
  (go-to "attrNames")
  (delete-char 9)
  (let* ((found (append (plist-get (ask :textDocument/completion) :items) nil))
         (item (seq-find (lambda (it) (equal (plist-get it :label) "mapAttrs")) found)))
    (check "mapAttrs f attrset" (plist-get item :detail) "a function of builtins"))
  (insert "attrNames")

  (go-to "openssl")
  (changed)
  (act "Give `openssl` its own entry" "refactor.rewrite")
  (go-to "    openssl = lib.openssl;")
  (set-buffer-modified-p nil))

(defun run ()
  (find-file "example.nix")
  (apply #'eglot (eglot--guess-contact))
  (message-is "rnix [unused-name]: `unused` is not used")

  ;; An error, and its correction.
  (go-to ";\n  archive")
  (delete-char 1)
  (changed)
  (message-is "rnix [syntax-error]: expected \";\" after the value of \"version\", found \"=\"\nnote: \";\" is missing here, line 12")
  (insert ";")
  (changed)
  (message-is "rnix [unused-name]: `unused` is not used")

  ;; The same error, and its quick fix.
  (let ((text (buffer-string)))
    (go-to ";\n  archive")
    (delete-char 1)
    (changed)
    (message-is "rnix [syntax-error]: expected \";\" after the value of \"version\", found \"=\"\nnote: \";\" is missing here, line 12")
    (go-to "= \"hello-")
    (let* ((place (eglot--pos-to-lsp-position))
           (actions (ask :textDocument/codeAction :range (list :start place :end place) :context '(:diagnostics []))))
      (check "Insert `;`" (plist-get (aref actions 0) :title) "the quick fix")
      (eglot--apply-workspace-edit (plist-get (aref actions 0) :edit)))
    (check text (buffer-string) "the text after the quick fix")
    (changed)
    (message-is "rnix [unused-name]: `unused` is not used"))

  (go-to "archive}")
  (xref-find-definitions (thing-at-point 'symbol))
  (check "archive = " (buffer-substring (point) (+ (point) 10)) "the definition")

  (go-to "pname}")
  (xref-find-definitions (thing-at-point 'symbol))
  (check "pname = \"" (buffer-substring (point) (+ (point) 9)) "the second definition")

  (let ((text (buffer-string)))
    (go-to "version}")
    (eglot-rename "release")
    (setq text (replace-regexp-in-string "version =" "release =" text t t))
    (setq text (replace-regexp-in-string "{version}" "{release}" text t t))
    (setq text (replace-regexp-in-string "inherit version" "version = release" text t t))
    (check text (buffer-string) "the renamed text"))

  (go-to "tools: map")
  (check "with the new name, some name would refer to something else"
         (condition-case refusal (progn (ask :textDocument/rename :newName "lib") nil)
           (jsonrpc-error (alist-get 'jsonrpc-error-message (cddr refusal))))
         "the refusal")

  (go-to "pname = ")
  (delete-char 7)
  (insert "pname=")
  (let ((text (progn (changed) (buffer-string))))
    (eglot-format-buffer)
    (check (replace-regexp-in-string "pname=" "pname =" text t t) (buffer-string) "the formatted text"))

  (set-buffer-modified-p nil)
  (run-across)
  (eglot-shutdown (eglot--current-server-or-lose)))

(condition-case problem
    (progn (run) (message "emacs: ok"))
  (error (message "emacs: %s" (error-message-string problem)) (kill-emacs 1)))
