"""The server: which texts are open, and what it answers to each request of the protocol."""
import os
import sys
import urllib.parse

from explaining.grammar import Grammar
from pylsp_jsonrpc.dispatchers import MethodDispatcher
from pylsp_jsonrpc.endpoint import Endpoint
from pylsp_jsonrpc.exceptions import JsonRpcException, JsonRpcInvalidParams
from pylsp_jsonrpc.streams import JsonRpcStreamWriter

from .contracts import Contract
from .looking import Looking, fixes
from .messages import BadMessage, read
from .reading import Leaves
from .scripts import OpenScript, contract_file

PROVIDED = (
    "hoverProvider", "definitionProvider", "referencesProvider", "documentSymbolProvider", "codeActionProvider",
)
# Each change brings the whole text.
WHOLE = 1
NOT_BEGUN, NOT_VALID = -32002, -32600


def file_of(uri):
    """Gives the file that is named so, or the name as it stands where it is no file's."""
    parts = urllib.parse.urlsplit(uri)
    return urllib.parse.unquote(parts.path, errors="surrogateescape") if parts.scheme == "file" else uri


class Server(MethodDispatcher):
    """The texts that are open, by the names that the editor has for them."""

    def __init__(self, explain, program, out):
        self.open, self.read_files, self.is_begun, self.is_shut = {}, {}, False, False
        self.leaves = Leaves(explain.grammar())
        self.lines = Grammar(explain.page("TEXTS"), "The script", is_reserving=False)
        self.words = Grammar(explain.page("TEXTS"), "The script").reserved
        self.lines.reserved = self.words
        self.version = explain.version()
        self.writer = JsonRpcStreamWriter(out)
        self.endpoint = Endpoint(self, self.writer.write, max_workers=1)
        self.looking = Looking(explain, program, self.publish, self.is_last)

    def __getitem__(self, method):
        if self.is_shut and method != "exit":
            raise JsonRpcException("the server is shut down", NOT_VALID)
        if not self.is_begun and method not in ("initialize", "exit"):
            raise JsonRpcException("the server is not initialized", NOT_BEGUN)
        return self.guarded(super().__getitem__(method))

    @staticmethod
    def guarded(handler):
        """Has a request whose parameters are of another form answered by one sentence."""

        def call(params):
            try:
                return handler(params)
            except (KeyError, TypeError, IndexError, ValueError) as error:
                raise JsonRpcInvalidParams("the parameters are of another form") from error

        return call

    def serve(self, source):
        """Answers to the end, and gives the status: 0 where the editor shut the server down before."""
        self.looking.start()
        while True:
            try:
                message = read(source)
            except BadMessage as bad:
                self.writer.write(bad.answer())
                continue
            if message is None or message.get("method") == "exit":
                break
            self.consume(message)
        self.looking.end()
        self.looking.join(2)
        self.endpoint.shutdown()
        return 0 if self.is_shut else 1

    def consume(self, message):
        """Answers a message. One that wants no answer is passed over where it has another form."""
        try:
            self.endpoint.consume(message)
        except (JsonRpcException, KeyError, TypeError, AttributeError):
            pass

    def publish(self, document, found):
        """Tells the editor what is found, unless the text has changed."""
        if self.is_last(document):
            document.found = found
            params = {"uri": document.uri, "diagnostics": found}
            version = {} if document.version is None else {"version": document.version}
            self.endpoint.notify("textDocument/publishDiagnostics", {**params, **version})

    def is_last(self, document):
        return self.open.get(document.uri) is document

    def made(self, uri, source, is_script):
        """Gives a version of a text."""
        data = source if isinstance(source, bytes) else source.encode("utf-8", "replace")
        file = file_of(uri)
        name = os.fsencode(file).decode("latin-1")
        if is_script:
            return OpenScript(uri, name, data, self.lines, lambda: self.contract(contract_file(file, data)))
        return Contract(uri, name, data, self.leaves)

    def contract(self, file):
        """Gives a contract by its file: that which is open, or what stands in the file, or nothing."""
        for it in list(self.open.values()):
            if not it.is_script and file and os.path.normpath(file_of(it.uri)) == os.path.normpath(file):
                return it
        try:
            with open(file or "", "rb") as lines:
                data = lines.read()
        except OSError:
            return None
        kept = self.read_files.get(file)
        if kept is None or kept.text.data != data:
            kept = self.made("file://" + urllib.parse.quote(os.fsencode(file)), data, False)
            self.read_files = {file: kept}
        return kept

    def change(self, uri, text, version, is_script):
        """Takes a new version of a text, and has it looked at, with the scripts that are for it."""
        document = self.made(uri, text, is_script)
        document.version = version
        self.open[uri] = document
        for it in list(self.open.values()):
            if it.is_script and not is_script and it.contract() is document:
                again = self.made(it.uri, it.text.data, True)
                again.version, again.answer = it.version, it.answer
                self.open[it.uri] = again
                self.looking.look(again)
        self.looking.look(document)

    def document(self, named):
        return self.open[named["uri"]]

    def m_initialize(self, **_):
        self.is_begun = True
        abilities = {**{it: True for it in PROVIDED}, "completionProvider": {"triggerCharacters": ["."]}}
        return {
            "capabilities": {"textDocumentSync": {"openClose": True, "change": WHOLE, "save": True}, **abilities},
            "serverInfo": {"name": "nomos-lsp", "version": self.version},
        }

    def m_initialized(self, **_):
        pass

    def m_shutdown(self, **_):
        self.is_shut = True

    def m_text_document__did_open(self, textDocument, **_):
        uri = textDocument["uri"]
        is_script = uri.endswith(".script") or "script" in str(textDocument.get("languageId"))
        self.change(uri, textDocument["text"], textDocument.get("version"), is_script)

    def m_text_document__did_change(self, textDocument, contentChanges, **_):
        old = self.document(textDocument)
        self.change(old.uri, contentChanges[-1]["text"], textDocument.get("version"), old.is_script)

    def m_text_document__did_save(self, textDocument, **_):
        """Looks again: the program or a file beside may be another one now."""
        old = self.document(textDocument)
        self.change(old.uri, old.text.data, old.version, old.is_script)

    def m_text_document__did_close(self, textDocument, **_):
        closed = self.open.pop(textDocument["uri"])
        self.endpoint.notify("textDocument/publishDiagnostics", {"uri": closed.uri, "diagnostics": []})

    def m_text_document__hover(self, textDocument, position, **_):
        said = self.document(textDocument).hover(position)
        return said and {"contents": {"kind": "plaintext", "value": shown(said)}}

    def m_text_document__definition(self, textDocument, position, **_):
        return self.document(textDocument).definition(position)

    def m_text_document__references(self, textDocument, position, context=None, **_):
        is_whole = (context or {}).get("includeDeclaration", True)
        return self.document(textDocument).references(position, is_whole)

    def m_text_document__document_symbol(self, textDocument, **_):
        return self.document(textDocument).symbols()

    def m_text_document__completion(self, textDocument, position, **_):
        return self.document(textDocument).completion(position)

    def m_text_document__code_action(self, textDocument, range, **_):  # pylint: disable=redefined-builtin
        document = self.document(textDocument)
        return list(fixes(document, document.found, range))


def shown(said):
    """Gives bytes that stand one in each character as the text that they are."""
    return said.encode("latin-1", "replace").decode("utf-8", "replace")


def served(explain, program):
    """Serves over the standard input and output."""
    return Server(explain, program, sys.stdout.buffer).serve(sys.stdin.buffer)
