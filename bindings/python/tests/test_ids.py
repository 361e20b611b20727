import iox2sd
from iox2sd import UniqueId, UniqueNodeId, UniquePublisherId, UniqueServiceId, UniqueSubscriberId

from . import TestCase

MOST = 2**32 - 1
KINDS = [
    UniqueNodeId, UniquePublisherId, UniqueSubscriberId, iox2sd.UniqueNotifierId,
    iox2sd.UniqueListenerId, iox2sd.UniqueClientId, iox2sd.UniqueServerId, iox2sd.UniqueReaderId,
    iox2sd.UniqueWriterId, UniqueServiceId,
]


class Ids(TestCase):
    def test_text_and_value(self):
        for kind in KINDS:
            id = kind(1, 2, 3, 0x1234ABCD)
            self.assertEqual(str(id), "100000002000000031234abcd")
            self.assertEqual(id.value, 1 << 96 | 2 << 64 | 3 << 32 | 0x1234ABCD)
            self.assertEqual((id.process, id.seconds, id.nanoseconds), (1, 2, 3))
            self.assertEqual(kind(MOST, MOST, MOST, MOST).value, 2**128 - 1)
        self.assertEqual(str(UniqueServiceId(0, 0, 0, 0)), "0")

    def test_order_and_equality(self):
        ids = [
            UniquePublisherId(0, 0, 0, 1), UniquePublisherId(0, 0, 1, 0),
            UniquePublisherId(0, 1, 0, 0), UniquePublisherId(1, 0, 0, 0),
        ]
        self.assertEqual(sorted(reversed(ids)), ids)
        self.assertTrue(ids[0] <= ids[0] < ids[1] <= ids[2] and ids[3] > ids[2] >= ids[2])
        self.assertEqual(len({*ids, UniquePublisherId(1, 0, 0, 0)}), 4)
        self.assertNotEqual(UniquePublisherId(1, 2, 3, 4), UniqueSubscriberId(1, 2, 3, 4))
        with self.assertRaises(TypeError):
            UniquePublisherId(1, 2, 3, 4) < UniqueSubscriberId(1, 2, 3, 4)

    def test_ids_are_read_back(self):
        for kind in KINDS:
            for parts in ((1, 2, 3, 4), (MOST, MOST, MOST, MOST), (0, 0, 0, 1), (1, 0, 0, 0)):
                id = kind(*parts)
                for read in (kind.from_text(str(id)), kind.from_value(id.value)):
                    self.assertEqual((read, type(read)), (id, kind))
            wrong = ("", "0a", "A", "+a", "-1", " a", "a ", "0x1", "g", "1_0", "00", "\u0661")
            far = ("1" + "0" * 32, "9" * 10**4)
            self.refuses(iox2sd.RefusedError, kind.from_text, *wrong, *far)
            self.refuses(iox2sd.WrongTypeError, kind.from_text, 1, None, b"1")
            self.refuses(iox2sd.WrongTypeError, kind.from_value, "1", None, True, 1.0)
            self.refuses(iox2sd.OutOfRangeError, kind.from_value, -1, 2**128)
        self.assertEqual(UniqueServiceId.from_text("0"), UniqueServiceId(0, 0, 0, 0))
        self.assertRaises(iox2sd.NoNodeError, UniqueNodeId.from_text, "0")
        self.assertRaises(iox2sd.NoNodeError, UniqueNodeId.from_value, 1 << 64)

    def test_ids_of_nodes(self):
        for id in (UniqueNodeId(1, 5, 6, 0), UniqueNodeId(0, 5, 6, 1), UniqueNodeId(3, 5, 6, 4)):
            self.assertEqual(id.owner_id, id.process * 2**32 + id.counter)
        self.raised(iox2sd.NoNodeError, UniqueNodeId, 0, 5, 6, 0, text="seconds=5")

    def test_ids_do_not_change(self):
        id = UniqueServiceId(1, 2, 3, 4)
        self.assertRaises(AttributeError, setattr, id, "process", 5)
        self.assertRaises((AttributeError, TypeError), setattr, id, "other", 5)

    def test_parts_are_integers_of_32_bits(self):
        for kind in KINDS:
            for place in range(4):
                def made(part: object, place: int = place) -> UniqueId:
                    return kind(*(part if at == place else at for at in range(4)))

                self.refuses(iox2sd.OutOfRangeError, made, -1, 2**32, 2**64, 10**5000)
                self.refuses(iox2sd.WrongTypeError, made, True, 1.0, "1", None, b"1")
