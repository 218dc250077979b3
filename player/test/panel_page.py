"""A page with the panels alone, and a server that gives it and runs the program for it."""

import http.server
import json
import pathlib
import subprocess
import threading

TOP = pathlib.Path(__file__).resolve().parent.parent.parent
PLAYER = TOP / "player"
SCRIPTS = """log.js trace.js model.js changes.js report.js run.js explain.js examples.js kinds.js
test/panel_session.js panels.js grid_model.js grid_cells.js grid_table.js grid.js trace_edit.js curve_model.js
curve_chart.js curve.js compare_model.js compare.js exercise.js exercise_sheet.js lessons.js questions.js""".split()
PANELS = (("grid", "References and faults"), ("curve", "What more frames are worth"),
          ("compare", "Two runs side by side"), ("questions", "Questions"))


def page_text():
    sections = "".join(f'<section id="{name}" class="panel" aria-labelledby="{name}-title">'
                       f'<h2 id="{name}-title">{title}</h2></section>\n' for name, title in PANELS)
    scripts = "".join(f'<script src="{name}"></script>\n' for name in SCRIPTS if (PLAYER / name).exists())
    look = '<script src="look.js"></script>' if (PLAYER / "look.js").exists() else ""
    return ('<!DOCTYPE html>\n<html lang="en"><head><meta charset="utf-8">'
            '<meta name="viewport" content="width=device-width, initial-scale=1"><title>Panels</title>'
            '<link rel="icon" href="data:,">' + look + '<link rel="stylesheet" href="player.css">'
            '<link rel="stylesheet" href="panels.css"></head>\n'
            f'<body><main style="display: block">{sections}</main>{scripts}</body></html>\n')


class Handler(http.server.SimpleHTTPRequestHandler):
    """Files of the player, the page of the panels, and runs of the program."""

    program = ""

    def __init__(self, *words):
        super().__init__(*words, directory=str(PLAYER))

    def log_message(self, *words):
        """Says nothing."""

    def give(self, kind, text):
        body = text.encode()
        self.send_response(200)
        self.send_header("Content-Type", kind)
        self.send_header("Content-Length", str(len(body)))
        self.end_headers()
        try:
            self.wfile.write(body)
        except (BrokenPipeError, ConnectionResetError):
            pass  # the page was left meanwhile

    def do_GET(self):
        if self.path == "/panels.html":
            self.give("text/html; charset=utf-8", page_text())
        else:
            super().do_GET()

    def do_POST(self):
        asked = json.loads(self.rfile.read(int(self.headers["Content-Length"])))
        run = subprocess.run([self.program, *asked["words"]], input=asked["text"], text=True, capture_output=True,
                             timeout=60, check=False)
        self.give("application/json", json.dumps({"status": run.returncode, "output": run.stdout}))


class PanelServer:
    """The server, in a thread of its own, until it is closed."""

    def __init__(self, program):
        handler = type("Handler", (Handler,), {"program": str(program)})
        self.server = http.server.ThreadingHTTPServer(("127.0.0.1", 0), handler)
        self.uri = f"http://127.0.0.1:{self.server.server_port}/panels.html"
        threading.Thread(target=self.server.serve_forever, daemon=True).start()

    def close(self):
        self.server.shutdown()
        self.server.server_close()
