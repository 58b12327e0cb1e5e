"""Tests of the language server: it is spoken to by hand, also badly, and by Neovim's own client where that is there."""

import importlib.util
import json
import os
import queue
import shutil
import subprocess
import sys
import threading
import time
import unittest

from helping import PROGRAM, ROOT, Case, needs_program

MODEL = "v<=M() -> [{ ?v<M(); { v'=2 & v<=M() } ++ { v'=-4 & v>=0 } }*]v<=M()\n"
STRATEGY = 'implyR(1);\nloop("v<=M()",1); <(\n  close,\n  nil,\n  close\n)\n'
HAS_LIBRARY = importlib.util.find_spec("pylsp_jsonrpc") is not None
needs_library = unittest.skipUnless(HAS_LIBRARY, "python3-pylsp-jsonrpc isn't there")


class Client:
    """Speaks the protocol with a server, and keeps what it says."""

    def __init__(self, folder):
        environment = {**os.environ, "DLK": PROGRAM, "PYTHONPATH": str(ROOT / "src")}
        self.process = subprocess.Popen(
            [sys.executable, "-m", "dlkt", "lsp"], stdin=subprocess.PIPE, stdout=subprocess.PIPE, stderr=subprocess.DEVNULL, env=environment, cwd=folder,
        )
        self.told, self.number = queue.Queue(), 0
        threading.Thread(target=self.read, daemon=True).start()

    def read(self):
        """Reads what the server says, until its end."""
        out = self.process.stdout
        while True:
            length = 0
            while (line := out.readline()).strip():
                if line.lower().startswith(b"content-length:"):
                    length = int(line.split(b":")[1])
            if not line:
                self.told.put(None)
                return
            self.told.put(json.loads(out.read(length)))

    def write(self, data):
        """Sends bytes as they are."""
        self.process.stdin.write(data)
        self.process.stdin.flush()

    def send(self, message):
        """Sends a message."""
        body = json.dumps({"jsonrpc": "2.0", **message}).encode()
        self.write(b"Content-Length: %d\r\n\r\n%s" % (len(body), body))

    def notify(self, method, **params):
        """Sends a notification."""
        self.send({"method": method, "params": params})

    def ask(self, method, **params):
        """The answer to a request."""
        self.number += 1
        self.send({"id": self.number, "method": method, "params": params})
        return self.wait(lambda it: it.get("id") == self.number and "method" not in it)

    def wait(self, is_it, seconds=20):
        """The next message that is wanted; others are dropped."""
        end = time.monotonic() + seconds
        while time.monotonic() < end:
            try:
                message = self.told.get(timeout=max(0.01, end - time.monotonic()))
            except queue.Empty:
                break
            if message is None or is_it(message):
                return message
        raise AssertionError("the server doesn't answer")

    def marks(self, uri, is_it=lambda marks: True):
        """The next diagnostics of a text that are as wanted."""
        found = self.wait(
            lambda it: it.get("method") == "textDocument/publishDiagnostics" and it["params"]["uri"] == uri and is_it(it["params"]["diagnostics"])
        )
        return found["params"]["diagnostics"]

    def close(self):
        """Ends the server as an editor does; its exit status."""
        try:
            self.ask("shutdown")
            self.notify("exit")
            return self.process.wait(10)
        finally:
            self.process.kill()
            self.process.communicate()


@needs_program
@needs_library
class Spoken(Case):
    """The protocol, by hand."""

    def setUp(self):
        super().setUp()
        self.model, self.strategy = self.file("a.dlkmodel", MODEL), self.file("a.dlkstrategy", STRATEGY)
        self.client = Client(self.folder)
        self.addCleanup(self.client.process.communicate)
        self.addCleanup(self.client.process.kill)
        self.capabilities = self.client.ask("initialize", capabilities={})["result"]["capabilities"]

    def opened(self, name, text, language="dlkstrategy"):
        """The address of a text that is opened."""
        uri = (self.folder / name).as_uri()
        self.client.notify("textDocument/didOpen", textDocument={"uri": uri, "languageId": language, "version": 1, "text": text})
        return uri

    def test_what_it_can_do(self):
        for name in ("hoverProvider", "completionProvider", "codeActionProvider", "documentFormattingProvider", "codeLensProvider"):
            self.assertTrue(self.capabilities[name])
        self.assertEqual(self.client.close(), 0)

    def test_a_word_that_fails(self):
        uri = self.opened("a.dlkstrategy", "implyR(1);\nandR(1)\n")
        found = self.client.marks(uri, bool)
        self.assertEqual(found[0]["range"]["start"], {"line": 1, "character": 0})
        self.assertIn("WrongShape", found[0]["message"])
        self.assertIn("on v<=M() ==>", found[0]["message"])

    def test_goals_that_are_left(self):
        uri = self.opened("a.dlkstrategy", STRATEGY)
        found = self.client.marks(uri, bool)
        self.assertIn("left: v<=M() ==> [?v<M();", found[-1]["message"])
        lens = self.client.wait(lambda it: it.get("method") == "textDocument/publishDiagnostics", 5)
        self.assertTrue(lens)
        said = self.client.ask("textDocument/codeLens", textDocument={"uri": uri})["result"]
        self.assertIn("1 goal left", said[0]["command"]["title"])

    def test_a_model_that_is_none(self):
        uri = self.opened("a.dlkmodel", "x>=0 & -> y>0\n", "dlkmodel")
        found = self.client.marks(uri, bool)
        self.assertEqual(found[0]["range"]["start"], {"line": 0, "character": 7})

    @unittest.skipUnless(importlib.util.find_spec("z3"), "python3-z3 isn't there")
    def test_a_model_that_a_run_breaks(self):
        uri = self.opened("b.dlkmodel", "x>=0 -> [x:=x-1;]x>=0\n", "dlkmodel")
        found = self.client.marks(uri, bool)
        self.assertIn("refuted, by this run:", found[0]["message"])
        said = self.client.ask("textDocument/codeLens", textDocument={"uri": uri})["result"]
        self.assertIn("refuted: a run breaks it", said[0]["command"]["title"])

    def test_changes(self):
        uri = self.opened("a.dlkstrategy", "implyR(1);\nandR(1)\n")
        self.client.marks(uri, bool)
        piece = {"start": {"line": 1, "character": 0}, "end": {"line": 1, "character": 7}}
        self.client.notify("textDocument/didChange", textDocument={"uri": uri, "version": 2}, contentChanges=[{"range": piece, "text": "nil"}])
        found = self.client.marks(uri, lambda marks: bool(marks) and "left:" in marks[0]["message"])
        self.assertEqual(found[0]["severity"], 3)

    def test_hover(self):
        uri = self.opened("a.dlkstrategy", STRATEGY)
        said = self.client.ask("textDocument/hover", textDocument={"uri": uri}, position={"line": 3, "character": 3})["result"]
        self.assertIn("before: 1 goal", said["contents"]["value"])
        self.assertIn("v<=M() ==> [?v<M();", said["contents"]["value"])
        said = self.client.ask("textDocument/hover", textDocument={"uri": uri}, position={"line": 1, "character": 2})["result"]
        self.assertIn("behind: 3 goals", said["contents"]["value"])
        said = self.client.ask("textDocument/hover", textDocument={"uri": uri}, position={"line": 1, "character": 6})["result"]
        self.assertIn("it changes in lines 1", said["contents"]["value"].replace("line 1", "lines 1"))

    def test_hover_over_an_axiom(self):
        uri = self.opened("a.dlkstrategy", "useAt(V,1)\n")
        said = self.client.ask("textDocument/hover", textDocument={"uri": uri}, position={"line": 0, "character": 6})["result"]
        self.assertIn("p() -> [a;]p()", said["contents"]["value"])

    def test_completion(self):
        uri = self.opened("a.dlkstrategy", 'implyR(1);\nuseAt(')
        labels = [it["label"] for it in self.client.ask("textDocument/completion", textDocument={"uri": uri}, position={"line": 1, "character": 6})["result"]]
        self.assertIn("assignb", labels)
        uri = self.opened("b.dlkstrategy", 'implyR(1);\nandL(')
        self.file("b.dlkmodel", MODEL)
        found = self.client.ask("textDocument/completion", textDocument={"uri": uri}, position={"line": 1, "character": 5})["result"]
        self.assertEqual([it["label"] for it in found], ["-1", "1"])
        self.assertEqual(found[0]["detail"], "v<=M()")
        found = self.client.ask("textDocument/completion", textDocument={"uri": uri}, position={"line": 0, "character": 0})["result"]
        self.assertIn("loop", [it["label"] for it in found])

    def test_completion_in_quotes(self):
        uri = self.opened("a.dlkstrategy", 'implyR(1);\nloop("')
        labels = [it["label"] for it in self.client.ask("textDocument/completion", textDocument={"uri": uri}, position={"line": 1, "character": 6})["result"]]
        self.assertEqual(labels, ["v", "M()"])

    def test_the_next_words(self):
        uri = self.opened("a.dlkstrategy", "nil\n")
        piece = {"start": {"line": 0, "character": 1}, "end": {"line": 0, "character": 1}}
        said = self.client.ask("textDocument/codeAction", textDocument={"uri": uri}, range=piece, context={"diagnostics": []})["result"]
        self.assertIn("implyR(1): leaves 1 goal", [it["title"] for it in said])
        self.assertEqual(said[-1]["title"], "name a fact with cut")

    def test_formatting(self):
        uri = self.opened("a.dlkmodel", MODEL, "dlkmodel")
        said = self.client.ask("textDocument/formatting", textDocument={"uri": uri}, options={})["result"]
        self.assertEqual(len(said), 1)
        self.assertNotEqual(said[0]["newText"], MODEL)

    def test_bad_input(self):
        self.client.write(b"Content-Length: 7\r\n\r\n{\"a\": 1")  # no JSON
        self.client.write(b"Content-Length: minus\r\n\r\n")
        self.client.write(b"nothing\r\n\r\n")
        self.client.write(b"Content-Length: 2\r\n\r\n[]")
        self.client.write(b"Content-Length: 4\r\n\r\nnull")
        self.client.send({"method": "no/such"})
        said = self.client.ask("no/such")
        self.assertEqual(said["error"]["code"], -32601)
        self.client.notify("textDocument/didChange", textDocument={"uri": "file:///none", "version": 3}, contentChanges=[{"text": "x"}])
        self.client.notify("textDocument/didOpen", nonsense=1)
        said = self.client.ask("textDocument/hover", textDocument={"uri": "file:///none"}, position={"line": 0, "character": 0})
        self.assertIsNone(said["result"])
        self.assertEqual(self.client.close(), 0)

    def test_half_a_message(self):
        self.client.write(b"Content-Length: 1000\r\n\r\n{\"jsonrpc\": \"2.0\"")
        self.client.process.stdin.close()
        self.assertEqual(self.client.process.wait(10), 1)
        self.client.process.stdin = None

    def test_a_long_text(self):
        uri = self.opened("long.dlkmodel", "x>=0 & " * 150_000 + "true\n", "dlkmodel")
        self.assertTrue(self.client.marks(uri, bool))

    def test_many_changes(self):
        uri = self.opened("a.dlkstrategy", "nil\n")
        begin = time.monotonic()
        for version in range(2, 1002):
            self.client.notify("textDocument/didChange", textDocument={"uri": uri, "version": version}, contentChanges=[{"text": f"nil /* {version} */\n"}])
        self.client.notify("textDocument/didChange", textDocument={"uri": uri, "version": 1002}, contentChanges=[{"text": "andR(1)\n"}])
        self.client.marks(uri, lambda marks: bool(marks) and "WrongShape" in marks[0]["message"])
        self.assertLess(time.monotonic() - begin, 15)

    def test_a_file_that_vanishes(self):
        uri = self.opened("a.dlkstrategy", STRATEGY)
        self.client.marks(uri, bool)
        os.unlink(self.model)
        self.client.notify("textDocument/didSave", textDocument={"uri": uri})
        found = self.client.marks(uri, lambda marks: bool(marks) and "no model" in marks[0]["message"])
        self.assertEqual(found[0]["severity"], 2)


NEOVIM = r"""
local folder = vim.fn.getcwd()
vim.cmd('edit a.dlkstrategy')
vim.bo.filetype = 'dlkstrategy'
local id = vim.lsp.start_client({ name = 'dlkt', cmd = { os.getenv('DLKT_PYTHON'), '-m', 'dlkt', 'lsp' }, root_dir = folder })
vim.lsp.buf_attach_client(0, id)
local function wait(what) assert(vim.wait(20000, what, 50), 'no answer') end
wait(function() return vim.lsp.buf_is_attached(0, id) and vim.lsp.get_client_by_id(id) and vim.lsp.get_client_by_id(id).initialized end)
local said = {}
local function ask(method, params)
  local found = vim.lsp.buf_request_sync(0, method, params, 20000)
  assert(found and found[id] and found[id].result, method)
  return found[id].result
end
wait(function() return #vim.diagnostic.get(0) > 0 end)
table.insert(said, vim.diagnostic.get(0)[1].message)
vim.api.nvim_buf_set_lines(0, 3, 4, false, { '  andR(1),' })
wait(function() local d = vim.diagnostic.get(0); return #d > 0 and d[1].message:find('WrongShape') and d[1].lnum == 3 end)
table.insert(said, 'mistake at line ' .. vim.diagnostic.get(0)[1].lnum + 1)
vim.api.nvim_buf_set_lines(0, 3, 4, false, { '  nil,' })
vim.api.nvim_win_set_cursor(0, { 4, 3 })
local place = vim.lsp.util.make_position_params()
table.insert(said, ask('textDocument/hover', place).contents.value)
vim.api.nvim_win_set_cursor(0, { 2, 8 })
table.insert(said, vim.inspect(vim.tbl_map(function(it) return it.label end, ask('textDocument/completion', vim.lsp.util.make_position_params()))))
vim.api.nvim_win_set_cursor(0, { 4, 3 })
local range = vim.lsp.util.make_range_params()
range.context = { diagnostics = {} }
local actions = ask('textDocument/codeAction', range)
vim.lsp.util.apply_workspace_edit(actions[1].edit, 'utf-16')
table.insert(said, actions[1].title)
table.insert(said, table.concat(vim.api.nvim_buf_get_lines(0, 0, -1, false), '\n'))
vim.fn.writefile(vim.split(table.concat(said, '\n---\n'), '\n'), 'said')
vim.lsp.stop_client(id)
vim.cmd('qall!')
"""


@needs_program
@needs_library
@unittest.skipUnless(shutil.which("nvim"), "neovim isn't there")
class Neovim(Case):
    """Neovim's own client, headless: open, a mistake, its mark, a hover, a completion, an action, the buffer."""

    def test_a_proof_in_the_editor(self):
        self.file("a.dlkmodel", MODEL)
        self.file("a.dlkstrategy", STRATEGY)
        script = self.file("drive.lua", NEOVIM)
        environment = {**os.environ, "DLK": PROGRAM, "PYTHONPATH": str(ROOT / "src"), "DLKT_PYTHON": sys.executable, "HOME": str(self.folder)}
        ran = subprocess.run(["nvim", "--headless", "-u", "NONE", "-i", "NONE", "-n", "-S", script], cwd=self.folder, env=environment,
                             stdin=subprocess.DEVNULL, capture_output=True, text=True, timeout=90, check=False)
        said = self.folder / "said"
        self.assertTrue(said.is_file(), ran.stderr[-2000:])
        parts = said.read_text().split("\n---\n")
        self.assertIn("left: v<=M() ==> [", parts[0])
        self.assertEqual(parts[1], "mistake at line 4")
        self.assertIn("before: 1 goal", parts[2])
        self.assertIn("M()", parts[3])
        self.assertIn(": ", parts[4])
        self.assertIn(parts[4].split(":")[0], parts[5])


if __name__ == "__main__":
    unittest.main()
