"""tshark and sharkd over message files, in a home of their own, and the lines of `ncp show` from the fields alone."""
import json
import os
import re
import subprocess
import tempfile

TOP = os.path.dirname(os.path.dirname(os.path.abspath(__file__)))
TO_IMP = {0: "regular", 4: "nop"}
FROM_IMP = {0: "regular", 2: "going-down", 4: "nop", 5: "rfnm", 7: "dead", 9: "incomplete"}
with open(os.path.join(os.path.dirname(TOP), "include", "ncp.h"), encoding="utf-8") as header:
    TYPES = {int(number): name.lower().replace("_", "-") for name, number in re.findall(r"NCP_TYPE_(\w+) = (\d+)", header.read())}
# The types from an IMP that `ncp show` prints by their numbers.
MEANINGS = {number: name for number, name in TYPES.items() if number not in FROM_IMP}

# Each command's words in the lines of `show`, with the words of its filters.
COMMANDS = [
    ("NOP", []),
    ("RTS", [("receive", "receive_socket"), ("send", "send_socket"), ("link", "link")]),
    ("STR", [("send", "send_socket"), ("receive", "receive_socket"), ("size", "size")]),
    ("CLS", [("my", "my_socket"), ("your", "your_socket")]),
    ("ALL", [("link", "link"), ("messages", "messages"), ("bits", "bits")]),
    ("GVB", [("link", "link"), ("fm", "fm"), ("fb", "fb")]),
    ("RET", [("link", "link"), ("messages", "messages"), ("bits", "bits")]),
    ("INR", [("link", "link")]),
    ("INS", [("link", "link")]),
    ("ECO", [("data", "data")]),
    ("ERP", [("data", "data")]),
    ("ERR", [("code", "code"), ("data", "data")]),
    ("RST", []),
    ("RRP", []),
]

FIELDS = ["frame.number", "frame.time_epoch", "_ws.col.Info"]
FIELDS += ["ncp1822." + name for name in "direction at bits type name meaning host link flags low src dst rest short response_to sent_in again again_in".split()]
FIELDS += ["ahhp." + name for name in (
    "m1 m2 fault size count text text.bits text.ascii padding command bad.code bad.data link socket connection stream left.messages left.bits"
    " text.allowed_in reply_to reply_in finding rule").split()]
FIELDS += ["ahhp.text.late", "h316.sequence", "h316.message_in"]
for command, words in COMMANDS:
    FIELDS += ["ahhp.%s.%s" % (command.lower(), word) for _, word in words]

# The settings of Wireshark for an audit: the rules of this project too, and of a capture that begins in the middle.
AUDITS = {"audit": ("TRUE", "FALSE"), "audit --standard": ("FALSE", "FALSE"), "audit --part": ("TRUE", "TRUE")}


class Shark:
    """A home with the plugin and the profiles, where tshark and sharkd look for them."""

    def __init__(self):
        self.folder = tempfile.TemporaryDirectory()
        self.home = self.folder.name
        self.environment = dict(os.environ, HOME=self.home, XDG_CONFIG_HOME=os.path.join(self.home, ".config"), TZ="UTC")
        subprocess.run([os.path.join(TOP, "install")], env=self.environment, check=True, capture_output=True)

    def path(self, name, data=None):
        path = os.path.join(self.home, name)
        if data is not None:
            with open(path, "wb") as file:
                file.write(data)
        return path

    def run(self, *words, **more):
        done = subprocess.run(["tshark", *words], env=self.environment, capture_output=True, text=True, **more)
        complaints = [line for line in done.stderr.splitlines() if "Running as user" not in line and line]
        return done.stdout, complaints, done.returncode

    def frames(self, path, *words):
        """For each frame its fields, and what tshark complained of."""
        asked = []
        for field in FIELDS:
            asked += ["-e", field]
        stdout, complaints, _ = self.run("-r", path, *words, "-T", "fields", "-E", "separator=/t", "-E", "aggregator=,", "-E", "occurrence=a", *asked)
        return [dict(zip(FIELDS, line.split("\t"))) for line in stdout.splitlines()], complaints

    def infos(self, paths):
        """For each file the Info column of its frames and the fault that was named, by one run of sharkd."""
        asked = []
        for i, path in enumerate(paths):
            asked.append({"jsonrpc": "2.0", "id": 2 * i + 1, "method": "load", "params": {"file": path}})
            asked.append({"jsonrpc": "2.0", "id": 2 * i + 2, "method": "frames"})
        done = subprocess.run(["sharkd", "-"], input="\n".join(map(json.dumps, asked)) + "\n", env=self.environment, capture_output=True, text=True)
        frames, faults, at, loaded = {}, {}, None, set()
        for line in done.stdout.splitlines():
            if line.startswith("{"):
                answer = json.loads(line)
                if answer.get("id", 1) % 2 == 0 and isinstance(answer.get("result"), list):
                    frames[answer["id"] // 2 - 1] = [frame["c"][-1] for frame in answer["result"]]
        for line in done.stderr.splitlines():
            if line.startswith("load: filename="):
                at = paths.index(line.split("=", 1)[1])
            elif line.startswith(" ncp: "):
                faults[at] = line[1:]
        return [(frames.get(i, []), faults.get(i)) for i in range(len(paths))]

    def findings(self, paths, profile, part):
        """The findings in Wireshark's list of experts of each file, by one run of sharkd."""
        asked = [("setconf", {"name": "ahhp.profile", "value": profile}), ("setconf", {"name": "ahhp.part", "value": part})]
        for path in paths:
            asked += [("load", {"file": path}), ("tap", {"tap0": "expert"})]
        lines = [json.dumps({"jsonrpc": "2.0", "id": i + 1, "method": method, "params": params}) for i, (method, params) in enumerate(asked)]
        done = subprocess.run(["sharkd", "-"], input="\n".join(lines) + "\n", env=self.environment, capture_output=True, text=True, check=False)
        found = []
        for line in done.stdout.splitlines():
            result = json.loads(line).get("result", {}) if line.startswith("{") else {}
            if "taps" in result:
                found.append([f"{one['f']} {one['m']}" for one in result["taps"][0]["details"] if one["m"].startswith("at=")])
        return found + [["(no answer of sharkd)"]] * (len(paths) - len(found))


def lines_of(frame):
    """The lines of `ncp show` of a frame, from its fields alone."""
    v = frame
    head = v["frame.number"]
    to_imp = v["ncp1822.direction"].strip("'") in ("H", "h", "0x48", "0x68")
    if v["ncp1822.at"]:
        head += " %s at=%s" % ("to-imp" if to_imp else "from-imp", v["ncp1822.at"])
    if int(v["ncp1822.bits"]) < 32:
        return [head + " short"]
    name = (TO_IMP if to_imp else FROM_IMP).get(int(v["ncp1822.type"]), "type-" + v["ncp1822.type"])
    line = "%s %s host=%s link=%s" % (head, name, v["ncp1822.host"], v["ncp1822.link"])
    if v["ncp1822.flags"] != "0" or v["ncp1822.low"] != "0":
        line += " flags=%s low=%s" % (v["ncp1822.flags"], v["ncp1822.low"])
    lines = [line]
    if v["ncp1822.type"] != "0":
        return lines
    if v["ahhp.fault"]:
        return lines + ["  fault " + v["ahhp.fault"]]
    lines.append("  size=%s count=%s" % (v["ahhp.size"], v["ahhp.count"]))
    if v["ncp1822.link"] == "0" and v["ahhp.size"] == "8":
        values = {field: iter(text.split(",")) for field, text in v.items()}
        for opcode in v["ahhp.command"].split(",") if v["ahhp.command"] else []:
            command, words = COMMANDS[int(opcode)]
            lines.append(" ".join(["  " + command] + ["%s=%s" % (key, next(values["ahhp.%s.%s" % (command.lower(), word)])) for key, word in words]))
        if v["ahhp.bad.code"]:
            lines.append("  bad code=%s data=%s" % (v["ahhp.bad.code"], v["ahhp.bad.data"].replace(":", "").ljust(20, "0")))
    else:
        text = v["ahhp.text"].replace(":", "")
        lines.append("  text bits=%s" % v["ahhp.text.bits"] + (" " + text if text else ""))
    return lines


def info_of(lines):
    """The Info column for a record with these lines in `ncp show`."""
    first, details = lines[0].split(" ", 1)[1], [line[2:] for line in lines[1:]]
    if len(details) > 9:
        details = details[:9] + ["and %d more" % (len(details) - 9)]
    for i, detail in enumerate(details):
        words = detail.split()
        if words[0] == "text" and len(words) == 3 and len(words[2]) > 64:
            details[i] = " ".join(words[:2] + [words[2][:64] + ".."])
    return "; ".join([first] + details)


def by_record(lines):
    """Lines of `ncp show`, those of each record by themselves."""
    records = []
    for line in lines:
        if line.startswith("  "):
            records[-1].append(line)
        else:
            records.append([line])
    return records
