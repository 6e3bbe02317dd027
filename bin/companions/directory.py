"""A directory of providers, in TOML or LDIF: what it says, and every fault of it with its place. The tests and their order
are those of docs/formats.md, `Tests of a directory`; the first fault is the one that the program tells."""

import difflib
import hashlib
import re
import tomllib

import dates
import ldif
import message
from console import Trouble, exported, read_file

LONGEST, MOST_PROVIDERS, MOST_ACCOUNTS, LIMIT = 1_048_576, 16, 10_000, 31_457_280
PROVIDER = ("name", "mailReceipt", "managedDomains", "key", "zone", "limit", "account")
ACCOUNT = ("address", "quota", "key")
HEADER = re.compile(r"[ \t]*\[\[[ \t]*provider[ \t]*(\.[ \t]*account[ \t]*)?\]\]")
LIKE_LDIF = re.compile(rb"\s*(?:#[^\n]*\s+)*(?:\xef\xbb\xbf)?(?:version:|dn:)")
FIELD = re.compile(r"""[ \t]*("?)([A-Za-z0-9_-]+)\1[ \t]*=""")


class Fault:
    """What the program tells of it, where it stands (a line, a column or None), and what it means."""

    def __init__(self, told, place, words):
        self.told, self.place, self.words = told, place, words

    def where(self):
        line, column = self.place or (None, None)
        return f"line {line}" + (f", column {column}" if column else "") if line else "the directory"


class Account:
    def __init__(self, address, quota, key):
        self.address, self.quota, self.key = address, quota, key


class Provider:
    """A provider whose fields are lawful."""

    def __init__(self, table):
        self.name, self.zone, self.key = table["name"], table["zone"], table["key"]
        self.receipts = message.address(table["mailReceipt"])
        self.domains = [one.lower() for one in table["managedDomains"]]
        self.limit = table.get("limit", LIMIT)
        self.accounts = [Account(message.address(one["address"]), one["quota"], one["key"]) for one in table["account"]]

    def canonical(self):
        lines = [f"provider {self.name}", f"receipts {self.receipts}", *(f"domain {one}" for one in self.domains)]
        lines += [f"key {self.key}", f"zone {self.zone}", f"limit {self.limit}"]
        return lines + [f"account {one.address} {one.quota} {one.key}" for one in self.accounts]


class Directory:
    """What a text says: its providers where it has no fault, its faults in their order, and notes, which are no faults."""

    def __init__(self, text):
        self.text, self.faults, self.notes, self.providers = text, [], [], []
        self.accounts, self.taken = {}, {}
        if len(text) > LONGEST:
            self.fault("too-long directory", None, f"it has {len(text):,} bytes, and {LONGEST:,} are the most")
            return
        for number, one in enumerate(self.tables()):
            self.test(number, one)
        if not self.faults:
            self.providers = [Provider({"account": []} | one) for one in self.read]

    def named(self, name):
        return next((one for one in self.providers if one.name == name), None)

    def home(self, address):
        """The provider in one of whose domains the address is."""
        return next((one for one in self.providers if message.domain(address) in one.domains), None)

    def digest(self):
        lines = [line for one in self.providers for line in one.canonical()]
        return hashlib.sha256("".join(f"{line}\n" for line in lines).encode()).hexdigest()

    def fault(self, told, place, words):
        self.faults.append(Fault(told, place, words))

    # ---- the text as a table

    def tables(self):
        try:
            self.read = self.ldif_tables() if ldif.is_ldif(self.text) else self.toml_tables()
        except ldif.Wrong as why:
            self.fault(f"refused directory {why.fault}", (why.line, None), str(why))
            return []
        is_list = isinstance(self.read, list) and self.read and all(isinstance(one, dict) for one in self.read)
        if not is_list:
            if not self.faults:
                words = "it has no provider: no table [[provider]], or no record of one"
                self.fault("refused directory no-provider", None, words)
            return []
        if len(self.read) > MOST_PROVIDERS:
            words = f"it has {len(self.read)} providers, and {MOST_PROVIDERS} are the most"
            self.fault("refused directory too-many", None, words)
            return []
        return self.read

    def ldif_tables(self):
        tables, others = ldif.table(self.text)
        for line, name in others:
            self.misspelt(name, sorted(ldif.KNOWN), (line, None))
        return tables

    def toml_tables(self):
        try:
            text = self.text.decode()
            read = tomllib.loads(text)
        except UnicodeDecodeError as why:
            self.not_toml((self.text[: why.start].count(b"\n") + 1, None), "it has a byte that is no UTF-8")
            return []
        except (tomllib.TOMLDecodeError, RecursionError) as why:
            found = re.search(r" \(at line ([0-9]+), column ([0-9]+)\)", str(why))
            place = (int(found.group(1)), int(found.group(2))) if found else (text.count("\n") + 1, None)
            self.not_toml(place, f"it is no TOML: {re.sub(' *[(]at .*', '', str(why)).lower()}")
            return []
        tables = read.get("provider")
        for name in read:
            self.misspelt(name, ["provider"], None)
        if isinstance(tables, list) and all(isinstance(one, dict) for one in tables):
            self.give_places(tables, text)
        return tables

    def not_toml(self, place, words):
        found = LIKE_LDIF.match(self.text)
        if found:
            place = (self.text[: found.end()].count(b"\n") + 1, None)
            words = "it looks like LDIF, whose first line has to be exactly `version: 1`"
        self.fault("refused directory not-toml", place, words)

    def give_places(self, tables, text):
        """Gives each table the lines of its fields, where tables are written as [[provider]] and [[provider.account]]."""
        found = []
        for number, line in enumerate(text.split("\n"), 1):
            header, field = HEADER.match(line), FIELD.match(line)
            if header:
                found.append((bool(header.group(1)), {"": (number, 1)}))
            elif field and found:
                found[-1][1].setdefault(field.group(2), (number, field.start(2) + 1))
        wanted = []
        for one in tables:
            accounts = one.get("account", [])
            wanted.append((False, one))
            wanted += [(True, each) for each in accounts if isinstance(each, dict)] if isinstance(accounts, list) else []
        if [sort for sort, _ in found] == [sort for sort, _ in wanted]:
            for (is_account, places), (_, table) in zip(found, wanted):
                for name in [name for name in table if name]:
                    self.misspelt(name, ACCOUNT if is_account else PROVIDER, places.get(name))
                table[""] = places

    def misspelt(self, name, known, place):
        """A note where a name that nobody looks at is near to one that is."""
        folded = {one.lower(): one for one in known}
        near = difflib.get_close_matches(name.lower(), folded, 1, 0.75)
        if name not in known and near:
            self.notes.append(Fault(None, place, f"`{name}` isn't looked at: is it `{folded[near[0]]}`?"))

    # ---- the tests

    def test(self, number, table):
        """Tests a provider and its accounts."""
        places = table.get("", {})
        name = table.get("name")
        self.who = f"provider {number}" + (f", `{name}`" if isinstance(name, str) else "")
        wrong = len(self.faults)
        for field in PROVIDER:
            place = places.get(field, places.get(""))
            why = self.of_provider(field, table)
            if why:
                words = self.field_words(field, table, FORMS[field])
                self.fault(f"refused directory {why.format(number, field)}", place, words)
        if len(self.faults) == wrong:
            self.against_others(number, table, places)
        accounts = table.get("account", [])
        for place, one in enumerate(accounts if isinstance(accounts, list) else [], 1):
            if isinstance(one, dict):
                self.test_account(number, place, one, table)

    def field_words(self, field, table, form):
        value = table.get(field)
        said = "it is missing" if field not in table else f"it is {value!r:.60}"
        if field == "key" and isinstance(value, str):
            said = f"it is another text, of {len(value)} characters"
        return f"{self.who}: `{field}` has to be {form}, and {said}"

    def of_provider(self, field, table):
        """The fault of a field by its type and form, or nothing."""
        value = table.get(field)
        if field == "limit":
            return None if "limit" not in table or is_number(value, 1, LIMIT) else "bad-field {} {}"
        if field == "account":
            accounts = table.get("account", [])
            is_right = isinstance(accounts, list) and all(isinstance(one, dict) for one in accounts)
            return None if is_right else "bad-field {} {}"
        if field == "managedDomains":
            is_right = isinstance(value, list) and value and all(isinstance(one, str) and is_domain(one) for one in value)
            return None if is_right else "bad-field {} {}"
        if not isinstance(value, str) or field == "name" and not re.fullmatch("[a-z0-9-]{1,32}", value):
            return "bad-field {} {}"
        if field == "mailReceipt":
            return None if address_of(value) else "bad-address {} 0"
        if field == "key":
            return None if re.fullmatch("(?:[0-9a-f]{2}){16,64}", value) else "bad-key {}"
        if field == "zone":
            return None if is_rule(value) else "bad-zone {}" if re.fullmatch("[!-~]{1,128}", value) else "bad-field {} {}"
        return None

    def against_others(self, number, table, places):
        """What the provider may not share with those before it."""
        place, name = places.get("name", places.get("")), table["name"]
        if ("name", name) in self.taken:
            self.fault(f"refused directory name-twice {number}", place, f"{self.who}: an earlier provider has its name")
        self.taken["name", name] = True
        place = places.get("managedDomains", places.get(""))
        for one in [one.lower() for one in table["managedDomains"]]:
            if ("domain", one) in self.taken:
                self.fault(f"refused directory domain-twice {number}", place, f"{self.who}: its domain {one} is taken already")
            self.taken["domain", one] = True
        receipts = address_of(table["mailReceipt"])
        self.accounts.setdefault(receipts, "the address of a provider's receipts")
        if not is_within(receipts, table):
            place = places.get("mailReceipt", places.get(""))
            words = f"{self.who}: its address for receipts, {receipts}, isn't in one of its domains"
            self.fault(f"refused directory account-outside {number} 0", place, words)

    def test_account(self, number, count, one, table):
        places, said = one.get("", {}), one.get("address")
        provider, whose = self.who, f"account {count}" + (f", `{said}`" if isinstance(said, str) else "")
        self.who = f"{provider}, {whose}"
        wrong = len(self.faults)
        for field in ACCOUNT:
            if not ACCOUNT_TESTS[field](one.get(field)):
                place = places.get(field, places.get(""))
                words = self.field_words(field, one, ACCOUNT_FORMS[field])
                self.fault(f"refused directory bad-field {number} {field}", place, words)
        if len(self.faults) == wrong:
            place = places.get("address", places.get(""))
            told = self.address_fault(said, table)
            if told:
                self.fault(f"refused directory {told[0]} {number} {count}", place, f"{self.who}: {told[1]}")
            elif sum(why is None for why in self.accounts.values()) >= MOST_ACCOUNTS:
                self.fault("refused directory too-many", place, f"{self.who}: there are {MOST_ACCOUNTS:,} accounts before it")
            else:
                self.accounts[address_of(said)] = None
        self.who = provider

    def address_fault(self, said, table):
        address = address_of(said)
        if address is None:
            return "bad-address", "its address is none"
        if not is_within(address, table):
            return "account-outside", "its address isn't in one of the provider's domains"
        if address in self.accounts:
            return "account-twice", f"its address is taken: it is {self.accounts[address] or 'that of an account before it'}"
        if address.startswith("posta-certificata@"):
            return "account-twice", "its address is taken: letters of providers come from such addresses"
        return None


def address_of(text):
    return message.address(text.encode("utf-8", "surrogatepass"))


def is_number(value, least, most):
    return isinstance(value, int) and not isinstance(value, bool) and least <= value <= most


def is_domain(text):
    return len(text) <= 236 and address_of("posta-certificata@" + text) is not None


def is_within(address, table):
    domains = table.get("managedDomains")
    named = [one.lower() for one in domains if isinstance(one, str)] if isinstance(domains, list) else []
    return message.domain(address) in named


def is_rule(text):
    try:
        return bool(re.fullmatch("[!-~]{1,128}", text) and dates.zone(text))
    except ValueError:
        return False


FORMS = {
    "name": "1 to 32 lower-case letters, digits and hyphens",
    "mailReceipt": "an address",
    "managedDomains": "a list of one or more domains",
    "key": "32 to 128 hexadecimal digits in lower case, an even number of them",
    "zone": "a POSIX rule, such as CET-1CEST,M3.5.0,M10.5.0/3",
    "limit": f"absent, or a number from 1 to {LIMIT}",
    "account": "absent, or tables [[provider.account]]",
}
ACCOUNT_FORMS = {
    "address": "an address",
    "quota": "a number from 0 to 1000000",
    "key": "1 to 64 printable characters without a blank",
}
ACCOUNT_TESTS = {
    "address": lambda value: isinstance(value, str),
    "quota": lambda value: is_number(value, 0, 1_000_000),
    "key": lambda value: isinstance(value, str) and re.fullmatch("[!-~]{1,64}", value),
}


def parted(text):
    """The directory of an input, and what stands behind its line `%%`, or None where there is no such line."""
    found = re.search(rb"^%%\r?\n|^%%\Z", text, re.MULTILINE)
    return (text[: found.start()], text[found.end() :]) if found else (text, None)


def load(name):
    """The directory of a file, which may have a script behind it."""
    read = Directory(parted(read_file(name))[0])
    if read.faults:
        read = by_the_program(read.text) or read
    if read.faults:
        one = read.faults[0]
        raise Trouble(f"{name}, {one.where()}: {one.words} (bin/lint {name} says all of it)")
    return read


def by_the_program(text):
    """The directory as the program reads it, where it is there and takes it: TOML 1.1 has forms that Python's reader hasn't."""
    said = exported(text)
    if said is None or said[1]:
        return None
    read = Directory(said[0])
    read.text = text
    return read
