"""Cases: pages, traces, graphs, and what is useful before the first build."""
from __future__ import annotations

import json
import os
import pathlib
import re
import subprocess

from case import Folder


class Looks(Folder):
    """Pages, graphs, and what one needs before the first build."""

    def test_init_and_build(self) -> None:
        self.front("init", "demo")
        os.chdir("demo")
        self.assertIn("1 action made", self.front())
        self.assertIn("exists already; nothing was written", self.front("init", status=2))

    def test_page_graph_explain(self) -> None:
        self.worker('if words["name"] == "a2": code, text = 3, "error: <no> </script>"')
        self.write_list(self.actions(8, 4))
        self.front("--page=run.html", status=1)
        page = pathlib.Path("run.html").read_text()
        self.assertIn("error: &lt;no&gt;", page)
        self.assertEqual(page.count("</script>"), 1)
        self.assertIn('"a2" -> "a6"', self.front("graph", "--dot"))
        self.assertEqual(self.front("graph", "--rdeps=src/1"), "a1\na5\n")
        self.assertIn("error: <no>", self.front("explain", "a2"))
        self.assertIn("did you mean a1 or", self.front("explain", "a11", status=4))
        self.assertTrue(os.path.exists(self.front("page").strip()))

    def test_doctor_and_help(self) -> None:
        self.assertIn("nothing stands in the way", self.front("doctor"))
        os.makedirs(".lenthuvi")
        os.rmdir(".lenthuvi")
        pathlib.Path(".lenthuvi").write_text("")
        self.assertIn("BAD  .lenthuvi is a folder", self.front("doctor", status=1))
        self.assertIn(".TH LENTHUVI 1", self.front("help", "--man"))
        script = self.front("help", "--bash")
        self.assertEqual(subprocess.run(["bash", "-n"], input=script, text=True).returncode, 0)

    def test_trace(self) -> None:
        self.worker('time.sleep(0.02)\nif words["name"] == "a2": code = 3')
        self.write_list(self.actions(8, 4))
        self.front("--trace=trace.json", "-j2", status=1)
        events = json.loads(pathlib.Path("trace.json").read_text())["traceEvents"]
        slices = [it for it in events if it["ph"] == "X"]
        self.assertEqual(sorted(it["name"] for it in slices), sorted(f"a{it}" for it in range(8) if it != 6))
        self.assertTrue(all(it["dur"] >= 20_000 and it["ts"] >= 0 for it in slices))
        self.assertEqual({it["args"]["exit"] for it in slices}, {"0", "3"})
        tracks: dict[int, list[tuple[int, int]]] = {}
        for it in slices:
            tracks.setdefault(it["tid"], []).append((it["ts"], it["ts"] + it["dur"]))
        for spans in tracks.values():
            spans.sort()
            self.assertTrue(all(one[1] <= other[0] + 1 for one, other in zip(spans, spans[1:])))

    def test_annotations(self) -> None:
        self.worker('code, text = 1, "src/0:12:5: error: no; such, thing\\nFoo.java:7: error: x\\n" + os.getcwd() + "/src/0:3: error: y"')
        self.write_list(self.actions(1))
        self.assertNotIn("::error", self.front(status=1))
        said = self.front(status=1, env={**os.environ, "GITHUB_ACTIONS": "true", "GITHUB_WORKSPACE": os.path.dirname(self.folder)})
        top = os.path.basename(self.folder)
        self.assertIn(f"::error file={top}/src/0,line=12,col=5,title=a0::no; such, thing", said)
        self.assertIn(f"::error file={top}/Foo.java,line=7,title=a0::x", said)
        self.assertIn(f"::error file={top}/src/0,line=3,title=a0::y", said)
        self.assertIn("::error", self.front("--annotate=always", status=1))
        self.worker('code, text = 1, "no place\\n100%"')
        self.assertIn("::error title=a0::no place%0A100%25", self.front("--annotate=always", status=1))

    def test_version_says_proved_or_trial(self) -> None:
        self.assertRegex(self.front("--version"), "worker_tool: (a TRIAL, nothing is proved|proved; sources|unknown, whether it is proved)")

    def test_clean(self) -> None:
        self.worker('os.makedirs("shut/in"); os.chmod("shut", 0)')
        self.write_list(self.actions(1))
        self.front()
        self.assertIn("removed .worker_rooms", self.front("clean"))
        self.assertFalse(os.path.exists(".worker_rooms") or os.path.exists(".lenthuvi/lists"))
        self.assertIn("1 action made", self.front())
