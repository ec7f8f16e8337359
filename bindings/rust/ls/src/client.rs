//! What the client has said that it can do, and what the server says.

use crate::features::{classes, diagnostics, refactorings};
use crate::json::{array, object, Value};
use crate::text::Encoding;

/// What the client can do.
#[derive(Clone, Copy, Debug)]
pub struct Client {
    /// What columns count.
    pub encoding: Encoding,
    /// Whether it takes edits together with the version of the document.
    pub takes_versions: bool,
    /// Whether it takes symbols inside symbols.
    pub takes_nested_symbols: bool,
    /// Whether it takes quick fixes with their edits.
    pub takes_actions: bool,
    /// Whether it shows Markdown when the pointer hovers over a name.
    pub takes_markdown: bool,
    /// Whether it asks for what has changed in the semantic tokens since it got some.
    pub takes_token_edits: bool,
    /// Whether it takes diagnostics that name other places.
    pub takes_related: bool,
    /// Whether it takes texts with places to fill in.
    pub takes_snippets: bool,
    /// Whether it can be asked for the settings.
    pub has_configuration: bool,
    /// Whether it asks for diagnostics, so that they need not be sent.
    pub asks_for_diagnostics: bool,
    /// Whether it can be asked to ask for diagnostics again.
    pub takes_refresh: bool,
    /// Whether it says which files change if it is asked to.
    pub watches_files: bool,
}

// Whether an array of the parameters has a string.
fn lists(params: &Value, path: &[&str], word: &str) -> bool {
    let words = params.at(path).and_then(Value::as_array).unwrap_or_default();
    words.iter().any(|other| other.as_str() == Some(word))
}

// What columns count: bytes if the client takes that.
fn encoding_of(params: &Value) -> Encoding {
    let encodings = ["capabilities", "general", "positionEncodings"];
    if lists(params, &encodings, "utf-8") {
        Encoding::Utf8
    } else {
        Encoding::Utf16
    }
}

impl Client {
    /// Reads the parameters of `initialize`.
    pub fn new(params: &Value) -> Client {
        let can = |path: &[&str]| {
            params
                .get("capabilities")
                .and_then(|all| all.at(path))
                .is_some_and(Value::is_true)
        };
        let formats = ["capabilities", "textDocument", "hover", "contentFormat"];
        let literals = ["capabilities", "textDocument", "codeAction", "codeActionLiteralSupport"];
        let pull = ["capabilities", "textDocument", "diagnostic"];
        Client {
            encoding: encoding_of(params),
            takes_versions: can(&["workspace", "workspaceEdit", "documentChanges"]),
            takes_nested_symbols: can(&["textDocument", "documentSymbol", "hierarchicalDocumentSymbolSupport"]),
            takes_actions: params.at(&literals).is_some(),
            takes_markdown: lists(params, &formats, "markdown"),
            takes_token_edits: can(&["textDocument", "semanticTokens", "requests", "full", "delta"]),
            takes_related: can(&["textDocument", "publishDiagnostics", "relatedInformation"])
                || can(&["textDocument", "diagnostic", "relatedInformation"]),
            takes_snippets: can(&["textDocument", "completion", "completionItem", "snippetSupport"]),
            has_configuration: can(&["workspace", "configuration"]),
            asks_for_diagnostics: matches!(params.at(&pull), Some(Value::Object(_))),
            takes_refresh: can(&["workspace", "diagnostics", "refreshSupport"]),
            watches_files: can(&["workspace", "didChangeWatchedFiles", "dynamicRegistration"]),
        }
    }

    /// Returns the answer to `initialize`.
    pub fn greeting(&self) -> Value {
        let encoding = match self.encoding {
            Encoding::Utf8 => "utf-8",
            Encoding::Utf16 => "utf-16",
        };
        let sync = object([
            ("openClose", true.into()),
            ("change", 2_usize.into()),
            ("save", true.into()),
        ]);
        let folders = object([("supported", true.into()), ("changeNotifications", true.into())]);
        let kinds = array(refactorings::KINDS.iter().map(|kind| Value::from(*kind)));
        let completion = object([
            ("resolveProvider", false.into()),
            ("triggerCharacters", array([".".into(), "/".into()])),
        ]);
        let capabilities = object([
            ("positionEncoding", encoding.into()),
            ("textDocumentSync", sync),
            ("hoverProvider", true.into()),
            ("completionProvider", completion),
            ("definitionProvider", true.into()),
            ("referencesProvider", true.into()),
            ("documentHighlightProvider", true.into()),
            ("documentLinkProvider", object([("resolveProvider", false.into())])),
            ("documentSymbolProvider", true.into()),
            ("codeActionProvider", object([("codeActionKinds", kinds)])),
            ("renameProvider", object([("prepareProvider", true.into())])),
            ("diagnosticProvider", diagnostics::provider()),
            ("documentFormattingProvider", true.into()),
            ("documentRangeFormattingProvider", true.into()),
            ("foldingRangeProvider", true.into()),
            ("selectionRangeProvider", true.into()),
            ("semanticTokensProvider", classes::provider()),
            ("workspaceSymbolProvider", true.into()),
            ("workspace", object([("workspaceFolders", folders)])),
        ]);
        let version = env!("CARGO_PKG_VERSION");
        let server = object([("name", "rnix-ls".into()), ("version", version.into())]);
        object([("capabilities", capabilities), ("serverInfo", server)])
    }
}
