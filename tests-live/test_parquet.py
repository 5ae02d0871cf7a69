#!/usr/bin/env -S python3 -B
"""Imports an S3 Inventory in Parquet, and compares it, where the library pyarrow is."""
import datetime
import importlib.util
import unittest

import live
from live import objects_of


@unittest.skipUnless(importlib.util.find_spec("pyarrow"), "no pyarrow")
class Parquet(live.Case):
    def test_an_inventory(self):
        import pyarrow
        import pyarrow.parquet
        # The columns of the S3 User Guide, "Amazon S3 Inventory list"; keys are not URL-encoded there.
        day = datetime.datetime(2024, 1, 3, tzinfo=datetime.timezone.utc)
        table = {"bucket": ["photos", "photos"], "key": ["a+b c", "\u00e9%20"], "size": [5, 6], "last_modified_date": [day, day], "storage_class": ["GLACIER", "STANDARD"]}
        pyarrow.parquet.write_table(pyarrow.table(table), self.folder / "inventory.parquet")
        server = self.serve()
        at = f"http://127.0.0.1:{server.port}"
        self.check("status", 0, self.run_tool("import-inventory", "--server", at, "inventory.parquet")[0])
        self.check("the objects", [("photos", "a+b c", 5, "GLACIER"), ("photos", "\u00e9%20", 6, "STANDARD")], objects_of(server.folder))
        self.check("nothing differs", 0, self.run_tool("compare", "--server", at, "inventory.parquet")[0])
        data = (self.folder / "inventory.parquet").read_bytes()
        self.file("cut.parquet", data[:-9])
        self.check("cut in the middle", 3, self.run_tool("compare", "--server", at, "cut.parquet")[0])


if __name__ == "__main__":
    live.main()
