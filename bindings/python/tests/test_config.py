from dataclasses import fields, replace

import iox2sd
from iox2sd import Config, DefaultText, Duration, FileName, Path, default_text

from . import TestCase


class Configs(TestCase):
    def test_defaults_are_those_of_the_library(self):
        config = Config()
        shared = config.global_cfg
        texts = [shared.root_path, shared.prefix]
        for part in (shared.service, shared.node):
            values = (getattr(part, field.name) for field in fields(part))
            texts += [value for value in values if isinstance(value, str)]
        self.assertEqual(len(texts), 16)
        self.assertEqual(texts, [default_text(which) for which in DefaultText][:16])
        self.assertEqual(shared.creation_timeout, Duration(0, 500_000_000))
        self.assertIs(shared.service.cleanup_dead_nodes_on_open, True)
        self.assertIs(shared.node.cleanup_dead_nodes_on_creation, True)
        self.assertIs(shared.node.cleanup_dead_nodes_on_destruction, True)
        for field in fields(config.defaults):
            self.assertEqual(getattr(config.defaults, field.name), field.type())

    def test_directories(self):
        shared = Config().global_cfg
        self.assertEqual(shared.service_dir(), "/tmp/iceoryx2/services")
        self.assertEqual(shared.node_dir(), "/tmp/iceoryx2/nodes")
        self.assertEqual(replace(shared, root_path=Path("")).node_dir(), "nodes")
        others = replace(
            shared, root_path=Path("/run/robot"),
            service=replace(shared.service, directory=Path("others")),
            node=replace(shared.node, directory=Path("heads")),
        )
        self.assertEqual(others.service_dir(), "/run/robot/others")
        self.assertEqual(others.node_dir(), "/run/robot/heads")
        long, longer = (replace(others, root_path=Path("x" * many)) for many in (250, 251))
        for call in (long.service_dir, longer.node_dir):
            self.assertRaises(iox2sd.TooLongError, call)

    def test_values(self):
        config = Config()
        self.assertEqual(eval(repr(config), vars(iox2sd)), config)
        self.assertEqual(hash(Config()), hash(config))
        for part in (config.global_cfg, config.global_cfg.service, config.global_cfg.node):
            for field in fields(part):
                self.assertRaises(iox2sd.WrongTypeError, replace, part, **{field.name: 5})
                value = getattr(part, field.name)
                if isinstance(value, (FileName, Path)):
                    changed = replace(part, **{field.name: type(value)("other")})
                    self.assertNotEqual(changed, part)
        for field in fields(config.defaults):
            changes = {field.name: config}
            self.assertRaises(iox2sd.WrongTypeError, replace, config.defaults, **changes)
