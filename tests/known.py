"""What the server knows, as its definitions have it: crates/ht_api/specs, and of ht_base the names of roles and states and
the limits."""

import re

from exchanges import Failure

CODES = re.compile(r'codes "([^"]*)"')


def rows(text, name):
    """The equations of a definition: of each its argument and its value."""
    found = re.findall(rf"^{name} (\([^)]*\)|\([^)]*\([^)]*\)\)|\S+) =((?:.|\n(?=[ \t]))*)", text, re.M)
    if not found:
        raise Failure(f"the definition {name} isn't there")
    return [(argument.strip("()"), value.strip()) for argument, value in found]


def value(text, name):
    found = re.search(rf"^{name}(?: \w+)* =((?:.|\n(?=[ \t]))*)", text, re.M)
    if not found:
        raise Failure(f"the definition {name} isn't there")
    return found[1]


class Known:
    def __init__(self, top):
        api, base = top / "crates/ht_api/specs", top / "crates/ht_base/specs"
        names = ("Keys", "Asked", "Routes", "Replies", "Statuses", "Contents", "Fits", "Lists", "Numbers")
        self.text = {name: (api / f"{name}.antt").read_text() for name in names}
        self.text |= {name: (base / f"{name}.antt").read_text() for name in ("Role", "State")}
        limits = "".join((top / f"crates/ht_base/src/{name}.rt").read_text() for name in ("limits", "moment"))
        self.limits = {name: int(number.replace("_", "")) for name, number in re.findall(r"const (\w+): \w+ = ([\d_]+);", limits)}

    # ---- requests

    def operations(self):
        return re.findall(r'\(codes "(\w+)", asked\.(\w+)\)', value(self.text["Asked"], "operations"))

    def routes(self):
        methods = {argument.split()[0].removeprefix("place."): CODES.search(of)[1]
                   for argument, of in rows(self.text["Routes"], "method_of")}
        routes = set()
        for path, place in re.findall(r'\(codes "([^"]+)", path\.(\w+)\)', value(self.text["Routes"], "paths")):
            ends = [name for name, _ in self.operations()] if place == "Operation" else [""]
            routes |= {(path.replace("{op}", end), methods[place]) for end in ends}
        return routes

    def key_names(self):
        return {key.removeprefix("key."): CODES.search(name)[1] for key, name in rows(self.text["Keys"], "key_name")}

    def keys(self, operation):
        """Of each key of a body whether it is required; those of a number aside."""
        name = dict(self.operations(), create="Create")[operation]
        of = {argument.removeprefix("asked."): text for argument, text in rows(self.text["Keys"], "keys_of")}
        found = re.findall(r"\(key\.(\w+), (true|false)\)", of.get(name, of["_"]))
        return {(self.key_names()[key], required == "true") for key, required in found}

    def number_keys(self):
        known = value(self.text["Keys"], "is_known")
        return {self.key_names()[key] for key in re.findall(r"key_name key\.(\w+)", known)}

    # ---- replies

    def refusals(self):
        """Of each refusal its status, its fault, and its keys."""
        statuses = {argument.split()[0]: int(status) for argument, status in rows(self.text["Statuses"], "refusal_status")}
        found = set()
        for argument, text in rows(self.text["Replies"], "refusal_data"):
            words = CODES.findall(text)
            if "named_fault" in text or "counted_fault" in text:
                fault, keys = words[0], {words[1], "fault"}
            elif text.startswith("fault"):
                fault, keys = words[0], {"fault", *words[1:]}
            else:
                fault, keys = words[words.index("fault") + 1], set(words) - {words[words.index("fault") + 1]}
            found.add((statuses[argument.split()[0]], fault, tuple(sorted(keys))))
        return found

    def objects(self):
        """The keys of each object that a reply has, by the name of its schema."""
        def keys(where, *names):
            return [key for name in names for key in CODES.findall(value(self.text[where], name))]
        done = next(text for argument, text in rows(self.text["Replies"], "answer_data") if argument.startswith("Done"))
        return {"Done": CODES.findall(done), "Sheet": keys("Replies", "first_rows", "middle_rows", "last_rows"),
                "Comment": keys("Contents", "comment_data"), "TaskRow": keys("Contents", "page_row_rows"),
                "Notice": keys("Contents", "notice_row_rows"), "TaskList": keys("Contents", "list_data"),
                "Notices": keys("Contents", "list_data")}

    def words(self):
        """The words that stand for something, by the name of their schema or their parameter."""
        named = {name: [CODES.search(text)[1] for _, text in rows(self.text[where], of)]
                 for name, where, of in (("Role", "Role", "role_name"), ("State", "State", "state_name"),
                                         ("FaultLimit", "Replies", "limit_name"))}
        lists = CODES.findall(value(self.text["Fits"], "role_named"))
        which = [CODES.search(text)[1] for _, text in rows(self.text["Lists"], "which_choice") if "codes" in text]
        return named | {"RoleList": lists, "Which": which + named["State"]}

    def roles_of_lists(self):
        anyone = [CODES.search(text)[1] for _, text in rows(self.text["Lists"], "role_choice") if "codes" in text]
        roles = {argument: CODES.search(text)[1] for argument, text in rows(self.text["Role"], "role_name")}
        return anyone + [roles[it] for it in re.findall(r"Some (\w+)", value(self.text["Lists"], "role_choices"))]

    def bounds(self):
        """The greatest numbers, and the longest texts and lists, by their schema or parameter and its word."""
        last = int(value(self.text["Numbers"], "last_number"))
        limits = {("Device", "maximum"): "LAST_DEVICE", ("Number", "maximum"): "LAST_NUMBER",
                  ("Priority", "maximum"): "LOWEST_PRIORITY", ("Names", "maxItems"): "MOST_NAMES",
                  ("CommentText", "maxLength"): "LONGEST_TEXT", ("Parts", "maxProperties"): "MOST_PARTS",
                  ("Count", "maximum"): "MOST_LISTED", ("Moment", "maximum"): "LAST"}
        return {place: self.limits[name] for place, name in limits.items()} | {("TaskNumber", "maximum"): last,
                                                                                ("From", "maximum"): last}
