"""The size of the functions' code after drops, which decides how long a proof takes. The gate has built the code."""

import importlib.machinery
import importlib.util
import unittest

from lib.serving import ROOT

# The most kilobytes of a function.
MOST = 12
# Crates that may have larger functions.
CRATES = {"keeping", "loops", "room_folder", "server", "sessions"}
# Functions that may be larger. `thiserror` writes the first two. The others are to be cut.
FUNCTIONS = {
    "command_fault::fault::FaultDisplay::fmt",
    "shape::fault::ChangeFaultDisplay::fmt",
    "connection::dialogue::Dialogue::serve_frame",
    "drawing::drawing::Drawing::plan_change",
    "drawing::drawing::insert_reserved",
    "history_check::findings::find_all",
    "renewal::plan::add_puts",
    "room_core::planned::Planned::drop",
    "room_lock::closing::close_all",
    "room_lock::closing::close_others",
    "room_lock::making::make",
    "room_lock::others::Others::open",
    "room_lock::room::Room::close",
    "room_lock::room::Room::note",
    "room_lock::room::Room::open",
    "room_lock::rooms::Rooms::new",
    "room_lock::shelf::all_parts",
    "room_record::record::Record::page",
    "room_record::record::shared_entries",
    "room_watch::session::session_over",
    "shape::named_groups::NamedGroups::push_ids_after",
    "world::World::script",
}


def sizes_script():
    """Returns bench/sizes as a module."""
    loader = importlib.machinery.SourceFileLoader("sizes", str(ROOT / "bench/sizes"))
    module = importlib.util.module_from_spec(importlib.util.spec_from_loader("sizes", loader))
    loader.exec_module(module)
    return module


def large_functions(codes, sizes):
    """Yields the size and the name of each function that is too large, and that nothing excuses."""
    for crate, path in codes:
        if crate not in CRATES:
            yield from ((size, name) for size, name in sizes(path) if size > MOST and name not in FUNCTIONS)


class TestSizes(unittest.TestCase):
    def test_sizes(self):
        """No function is too large."""
        script = sizes_script()
        codes = list(script.codes())
        if not codes:
            self.skipTest("no library is built")
        self.assertEqual(sorted(large_functions(codes, script.sizes), reverse=True), [])

    def test_large(self):
        """A function above the limit is found, unless its crate or its name is excused."""
        found = {"a": [(12.5, "a::large"), (12, "a::small")], "loops": [(90, "loops::large")]}
        self.assertEqual(list(large_functions([(crate, crate) for crate in found], found.get)), [(12.5, "a::large")])
