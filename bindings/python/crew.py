"""The proved calls of the crew planner, by ctypes.

    desk = crew.Desk(crew.Library("lib/x86_64-linux-gnu/libcrew.so"))
    desk.load_roster(open("two-for-one.roster", "rb").read())
    print(desk.find().plan)            # [(1, 1, 1)]: surveyor, stand, shift

A call that refuses raises Refused, with the number that crew.h names. Every call of crew.h can be made by its name (Library.call); what it takes and
answers is read from crew.json, which is made of the header.
"""
import ctypes
import json
import pathlib
from typing import NamedTuple

NUMBERS = {"u8": ctypes.c_uint8, "i16": ctypes.c_int16, "size": ctypes.c_size_t}
GROUPS = {1: "form", 2: "content", 3: "plan", 4: "desk"}
KINDS = {1: "plan", 2: "left", 3: "rivalled"}
FATES = {1: "fix", 2: "strike"}


class Refused(Exception):
    """A call that was refused: number, group, and the words for it."""

    def __init__(self, number, group, text):
        super().__init__(f"{number} {group}: {text}")
        self.number, self.group, self.text = number, group, text


class Step(NamedTuple):
    fate: str
    surveyor: int
    stand: int
    shift: int
    rule: int


class Found(NamedTuple):
    kind: str
    vote: int
    diary: list
    left: list
    plan: list
    rival: list


def pairs(data, count):
    return [tuple(data[3 * i:3 * i + 3]) for i in range(count)]


def plan_pairs(file):
    """The pairs of a plan file, three bytes each behind a count; none of no bytes."""
    return pairs(file[1:], len(file) // 3)


class Library:
    def __init__(self, path, description=None):
        if description is None:
            description = pathlib.Path(__file__).with_name("crew.json")
        self.told = json.loads(pathlib.Path(description).read_text())
        self.constants = self.told["constants"]
        self.library = ctypes.CDLL(str(path))
        self.functions = {name: self._function(name, call) for name, call in self.told["calls"].items()}

    def _function(self, name, call):
        function = getattr(self.library, name)
        slice_words = [ctypes.c_void_p, ctypes.c_size_t]
        words = {"desk": [self._struct(self.told["desk"])], "number": [ctypes.c_uint8], "read": slice_words, "written": slice_words}
        function.argtypes = [word for parameter in call["parameters"] for word in words[parameter["is"]]]
        function.restype = NUMBERS.get(call["answer"]) or self._struct(call["bytes"])
        return function

    def _struct(self, size):
        """So many bytes, which begin where a length may."""
        made = self.__dict__.setdefault("structs", {})
        if size not in made:
            fields = [("first", ctypes.c_uint64), ("second", ctypes.c_uint64)] if size == 16 else [("words", ctypes.c_uint64 * (size // 8))]
            made[size] = type(f"Bytes{size}", (ctypes.Structure,), {"_fields_": fields})
        return made[size]

    def call(self, name, *given, desk=None):
        """Makes a call. `given` are its numbers and slices in the header's order, without lengths: bytes where it reads, a bytearray where it
        writes. Gives the answer's numbers by their names, and the desk that it hands back."""
        call, words, lent, rest = self.told["calls"][name], [], [], list(given)
        for parameter in call["parameters"]:
            if parameter["is"] == "desk":
                words.append(desk)
            elif parameter["is"] == "number":
                words.append(rest.pop(0))
            else:
                data = rest.pop(0)
                room = ctypes.create_string_buffer(bytes(data), max(1, len(data)))
                words += [ctypes.addressof(room), len(data) // parameter["size"]]
                lent.append((parameter["is"], data, room))
        answer = self.functions[name](*words)
        for way, data, room in lent:
            if way == "written":
                data[:] = room.raw[:len(data)]
        if call["answer"] != "struct":
            return {"answer": answer}, desk
        raw = bytes(answer)
        numbers = {}
        for number in call["numbers"]:
            numbers[number["name"]] = NUMBERS[number["is"]].from_buffer_copy(raw, number["at"]).value
        hands_back = desk is not None or name == "crew_open"
        return numbers, self._struct(self.told["desk"]).from_buffer_copy(raw) if hands_back else None

    def check(self, number):
        if number:
            group = GROUPS[self.call("crew_group", number)[0]["answer"]]
            raise Refused(number, group, self.told["refusals"].get(str(number), "refused"))


class Desk:
    """A roster and a plan, held from one call to the next."""

    def __init__(self, library):
        self.library = library
        self.desk = library.call("crew_open")[1]

    def call(self, name, *given):
        """A call on the desk: its numbers by their names. A refusal is raised, and changes nothing."""
        numbers, self.desk = self.library.call(name, *given, desk=self.desk)
        self.library.check(numbers.get("refusal", 0))
        return numbers

    def load_roster(self, file):
        self.call("crew_load_roster", file)

    def load_plan(self, file):
        self.call("crew_load_plan", file)

    def find(self):
        return self._found("crew_find")

    def join(self, quota, stands):
        """A surveyor joins, with pairs of stand and shift, best first."""
        return self._found("crew_join", quota, bytes([len(stands)] + [byte for entry in stands for byte in entry]))

    def leave(self, number):
        return self._found("crew_leave", number)

    def _found(self, name, *given):
        size = self.library.constants
        diary, left = bytearray(5 * size["CREW_DIARY_RECORDS"]), bytearray(size["CREW_LEFT_BYTES"])
        plan, rival = bytearray(size["CREW_PLAN_BYTES"]), bytearray(size["CREW_PLAN_BYTES"])
        found = self.call(name, *given, diary, left, plan, rival)
        kind = KINDS[found["kind"]]
        steps = [Step(FATES[diary[5 * i]], *diary[5 * i + 1:5 * i + 5]) for i in range(found["steps"])]
        return Found(kind, found["vote"], steps, pairs(left, found["left"]),
                     plan_pairs(plan[:found["plan_length"]]), plan_pairs(rival[:found["rival_length"]]))
