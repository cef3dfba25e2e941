"""Makes a program of a copy of canvas_c, which calls each of its exports once: as_program.py FOLDER. For builds without proof alone.

`rt try` compiles programs, and of a program what its main reaches."""

import pathlib
import re
import sys

ARGUMENTS = {"&mut Handle": "&mut handle", "Global": "alloc", "u32": "0", "u64": "0", "&[u8]": 'b"x"', "&mut [u8]": "&mut room", "&mut ObjectId": "&mut made"}
EXPORT = re.compile(r'pub extern "C" fn (\w+)\((.*?)\)', re.DOTALL)


def call(name, parameters):
    types = [parameter.split(":", 1)[1].strip() for parameter in parameters.split(",") if ":" in parameter]
    return f"    let _ = {name}({', '.join(ARGUMENTS[it] for it in types)});\n"


def main_of(library):
    exports = EXPORT.findall(library)
    calls = sorted((call(*export) for export in exports), key=lambda line: ("_new(" not in line, "_free(" in line))
    return f"""
fn main(rt: HostRuntime) {{
    let alloc = rt.alloc();
    let mut handle = Handle::empty();
    let mut made = ObjectId {{ client: 0, counter: 0 }};
    let mut room = [0u8; 4];
{''.join(calls)}    handle.finish();
}}
"""


def main(folder):
    source = pathlib.Path(folder) / "src"
    library = (source / "lib.rt").read_text()
    (source / "main.rt").write_text(library + main_of(library))
    (source / "lib.rt").unlink()
    handle = (source / "handle.rt").read_text()
    opened = handle.replace("    fn empty() -> Handle", "    pub fn empty() -> Handle")
    if opened == handle or not opened.rstrip().endswith("}"):
        sys.exit("handle.rt has another form than this script knows")
    finish = "\n    pub fn finish(self) {\n        let Handle { kept, mark: _ } = self;\n        kept.end();\n    }\n}\n"
    (source / "handle.rt").write_text(opened.rstrip()[:-1] + finish)


if __name__ == "__main__":
    main(sys.argv[1])
