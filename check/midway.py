#!/usr/bin/env python3
"""Run by hand, and by check/demos.py: types lines to a session, and copies its pack file once the last one is replied to.

The copy is as a kill there leaves it: so packs that were left open are made, for the transcripts of demo/. The session itself goes on to
its end. `alto` has to be on the path, and the pack is that of one drive. The replies are printed.
"""
import argparse
import shutil
import sys

sys.dont_write_bytecode = True
import arguments

sys.path.append(str(arguments.TOP / "tools"))
from packtools.session import Session


def main():
    parser = argparse.ArgumentParser(description=__doc__, formatter_class=argparse.RawDescriptionHelpFormatter)
    parser.add_argument("pack", metavar="PACK", help="the path of the pack file")
    parser.add_argument("copy", metavar="COPY", help="the path of its copy, which is written anew")
    parser.add_argument("lines", metavar="LINE", nargs="+", help="what is typed")
    options = parser.parse_args()
    with Session("alto", options.pack) as session:
        for line in options.lines:
            print("\n".join(session.ask(line)), flush=True)
        shutil.copy(options.pack, options.copy)


main()
