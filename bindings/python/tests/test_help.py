import dataclasses
import inspect
import pydoc
import re
import unittest
from typing import Any

import iox2sd


def helped(kind: Any) -> str:
    return pydoc.render_doc(kind, renderer=pydoc.plaintext)


class Help(unittest.TestCase):
    def test_integers_read_as_int(self):
        for kind in vars(iox2sd).values():
            if isinstance(kind, type) and dataclasses.is_dataclass(kind):
                self.assertNotRegex(str(inspect.signature(kind)), "Annotated|ctypes")
        for kind, text in {
            iox2sd.EventSettings: "EventSettings(*,max_listeners:int=16,",
            iox2sd.UniqueNodeId: "UniqueNodeId(process:int,seconds:int,",
        }.items():  # A newer Python breaks the lines.
            self.assertIn(text, re.sub(r"[\s|]", "", helped(kind)))

    def test_fields_have_their_texts(self):
        text = helped(iox2sd.EventSettings)
        self.assertIn("event_id_max_value\n |      The greatest number of an event.\n", text)
        self.assertIn("deadline\n |      The longest time between two events, if there", text)
        text = helped(iox2sd.UniqueNodeId)
        self.assertIn("process\n |      The number of the process that made the id.\n", text)
        text = helped(iox2sd.ServiceConfig)
        self.assertIn("directory\n |      The directory of services, below the root path.\n", text)

    def test_every_public_name_has_a_text(self):
        for name in iox2sd.__all__:
            kind = getattr(iox2sd, name)
            if inspect.isfunction(kind):
                self.assertTrue(inspect.getdoc(kind), name)
            if isinstance(kind, type):
                self.assertTrue((kind.__doc__ or "").strip().endswith("."), name)
                for own, method in vars(kind).items():
                    if not own.startswith("_") and callable(method):
                        self.assertTrue(method.__doc__, f"{name}.{own}")
