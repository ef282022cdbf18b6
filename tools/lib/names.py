"""Short forms of demangled names of C++ and Rust: without parameters, template arguments and return types."""
import re

PAIRS = {"(": ")", "<": ">", "[": "]", "{": "}"}
# Names of operators with brackets or arrows, the longest first: these aren't the brackets of a group.
SYMBOL = r"\(\)|\[\]|->\*|->|<=>|<<=|>>=|<<|>>|<=|>=|<|>"
OPERATOR = re.compile(rf"operator({SYMBOL})")
TOKEN = re.compile(rf"[\[\](){{}}<>]|->|(?<![A-Za-z0-9_])operator(?:{SYMBOL})")
PLAIN = re.compile(r"[^<({\[o]+|o")
SPECIAL = re.compile(
    r"((?:(?:non-virtual|virtual|covariant return) thunk to|(?:construction )?vtable for|VTT for|typeinfo(?: name| fn)? for"
    r"|guard variable for|TLS (?:init|wrapper) function for|reference temporary #[0-9]* ?for|transaction clone for"
    r"|global (?:constructors|destructors) keyed to) )(.*)",
    re.S,
)
# What GNU's and LLVM's demanglers write after the name of a clone: foo() [clone .cold], foo() (.llvm.123).
CLONE = re.compile(r"( \[clone [^\]]*\]| \(\.[^)]*\)|(?<=[\w)])\.(?:cold|isra|part|constprop|llvm|lto_priv)[.\w]*)+$")
QUALIFIERS = re.compile(r"(?: const| volatile| restrict| noexcept| ?&&?(?=$|::| ))+")
RUST_HASH = re.compile(r"::h[0-9a-f]{16}$")
TAG = re.compile(r"\[(?:abi:\w+|[0-9a-f]{1,16})\]")
# A space that belongs to a name, as in `operator new`, while return types are looked for.
KEPT_SPACE = "\ue000"


def group_end(text, start):
    """Returns the position after the bracket that closes the one at a position, or None."""
    stack = []
    for token in TOKEN.finditer(text, start):
        char = token[0]
        if char in PAIRS:
            stack.append(PAIRS[char])
        elif char == stack[-1]:
            stack.pop()
            if not stack:
                return token.end()
    return None


def short_name(text):
    """Returns the short form of a demangled name, or the name itself if its brackets don't match."""
    text = RUST_HASH.sub("", CLONE.sub("", text))
    special = SPECIAL.fullmatch(text)
    if special:
        return special[1] + short_name(special[2])
    short = Shortener(text).short()
    return short if short else text


class Shortener:
    """One walk over a demangled name, which keeps what isn't in brackets."""

    def __init__(self, text):
        self.text, self.at, self.kept, self.is_function, self.matches = text, 0, "", False, True

    def short(self):
        """Returns the short name, or None if brackets don't match."""
        while self.matches and self.at < len(self.text):
            self.step()
        if not self.matches:
            return None
        name = self.kept.strip()
        if self.is_function:
            name = name.rpartition(" ")[2]
        return name.replace(KEPT_SPACE, " ")

    def step(self):
        char = self.text[self.at]
        if self.text.startswith("operator", self.at) and self.is_operator():
            self.take_operator()
        elif char == "<":
            self.take_angles()
        elif char == "(":
            self.take_parentheses()
        elif char == "{":
            self.take_braces()
        elif char == "[":
            self.take_brackets()
        else:
            self.at = self.keep(PLAIN.match(self.text, self.at)[0])

    def keep(self, text):
        """Keeps the text at the position, and returns the position after it."""
        self.kept += text
        return self.at + len(text)

    def is_operator(self):
        before = self.text[self.at - 1] if self.at else " "
        after = self.text[self.at + len("operator") : self.at + len("operator") + 1]
        return not (before.isalnum() or before == "_" or after.isalnum() or after == "_")

    def take_operator(self):
        """Keeps the name of an operator, up to its template arguments or its parameters."""
        symbol = OPERATOR.match(self.text, self.at)
        end = symbol.end() if symbol else self.at + len("operator")
        if not symbol:
            # operator+, operator new[], operator"" _s, or the type of a conversion, without its template arguments.
            while end < len(self.text) and self.text[end] not in "(<":
                end += 1
        self.kept += self.text[self.at : end].rstrip().replace(" ", KEPT_SPACE)
        self.at = end
        if self.text.startswith(" <", self.at):
            self.at += 1
        if not symbol and self.text.startswith("<", self.at):
            # After the arguments of a conversion's type comes the rest of the type: operator A<int>*().
            self.at = self.end() or self.at
            while self.matches and self.at < len(self.text) and self.text[self.at] in "*& ":
                self.kept += self.text[self.at].strip()
                self.at += 1

    def end(self):
        """Returns the position after the group that begins here, and notes if it has no end."""
        end = group_end(self.text, self.at)
        self.matches = end is not None
        return end

    def take_angles(self):
        """Drops template arguments. Rust's <T as Trait> and <impl Trait for T>, which begin a part of a path, stay, in short."""
        end = self.end()
        if end is None:
            return
        inner, before = self.text[self.at + 1 : end - 1], self.kept[-2:]
        if not before or (before == "::" and inner.startswith("impl ")) or (before.endswith(" ") and self.text[end : end + 2] == "::"):
            self.kept += f"<{rust_type(inner)}>".replace(" ", KEPT_SPACE)
        elif before == "::":
            self.kept = self.kept[:-2]
        self.at = end

    def take_parentheses(self):
        """Drops parameters with the qualifiers after them. `(anonymous namespace)` is a name."""
        end = self.end()
        if end is None:
            return
        group = self.text[self.at : end]
        if group == "(anonymous namespace)":
            self.kept += group.replace(" ", KEPT_SPACE)
        elif group[1:2] in ("*", "&") and self.kept.endswith(" "):
            # A function that returns a pointer to a function: void (*name(int))(char).
            self.kept = short_name(group[1:-1].lstrip("*&")).replace(" ", KEPT_SPACE)
            end = len(self.text)
        self.is_function = self.is_function or group != "(anonymous namespace)"
        qualifiers = QUALIFIERS.match(self.text, end)
        self.at = qualifiers.end() if qualifiers else end

    def take_braces(self):
        """Keeps {lambda()#1}, {closure#0} and the like, without parameters."""
        end = self.end()
        if end is None:
            return
        inner = self.text[self.at + 1 : end - 1]
        start = inner.find("(")
        stop = group_end(inner, start) if start >= 0 else None
        inner = inner[:start] + inner[stop:] if stop else inner
        self.kept += "{" + inner.replace(" ", KEPT_SPACE) + "}"
        self.at = end

    def take_brackets(self):
        """Drops the tags of an ABI or a crate, as in name[abi:cxx11] and std[8c5ea9b7a1d0b1c2], and keeps other brackets."""
        tag = TAG.match(self.text, self.at)
        end = tag.end() if tag else self.end()
        if end is None:
            return
        if not tag:
            self.kept += self.text[self.at : end].replace(" ", KEPT_SPACE)
        self.at = end


def rust_type(text):
    """Returns a type of Rust without generic arguments, but for those of `as` and `for`: A as B, impl B for A."""
    kept, at = [], 0
    while at < len(text):
        end = group_end(text, at) if text[at] == "<" else None
        if end and at and not text[at - 1].isspace() and text[at - 1] not in "&(*[,":
            if text[at - 2 : at] == "::":
                del kept[-2:]
            at = end
        else:
            tag = TAG.match(text, at) if at and text[at - 1].isalnum() else None
            kept.append("" if tag else text[at])
            at = tag.end() if tag else at + 1
    return "".join(kept)
