#!/usr/bin/env python3
"""Writes a man page for each call of the header, from the XML that doxygen writes.

    packaging/make_man.py XML MAN3 VERSION

Doxygen itself makes one page for the whole header, quic_streams.h(3), to which those of the calls refer."""
import glob
import os
import re
import sys
import xml.etree.ElementTree as ElementTree

GENERAL = "A call on a closed handle or buffer returns QS_ERR_CLOSED, and one with a number above its bound QS_ERR_ARGUMENT."


def text_of(element):
    """The words of an element, without its lists of parameters and return values."""
    if element is None:
        return ""
    words = [element.text or ""]
    for child in element:
        if child.tag not in ("parameterlist", "simplesect"):
            words.append(text_of(child))
        words.append(child.tail or "")
    return " ".join("".join(words).split())


def escaped(text):
    """Words as troff reads them."""
    text = text.replace("\\", "\\e").replace("-", "\\-")
    return re.sub(r"^([.'])", r"\\&\1", text)


class Call:
    """A function of the header, with its comment."""

    def __init__(self, member):
        self.name = member.findtext("name")
        self.result = text_of(member.find("type"))
        self.parameters = [(text_of(it.find("type")), it.findtext("declname")) for it in member.findall("param")]
        self.brief = text_of(member.find("briefdescription"))
        detailed = member.find("detaileddescription")
        self.paragraphs = [it for it in map(text_of, detailed.findall("para")) if it]
        self.listed = {kind: list(self.items(detailed, kind)) for kind in ("param", "retval")}
        returned = detailed.find(".//simplesect[@kind='return']")
        self.returned = text_of(returned.find("para")) if returned is not None else ""

    @staticmethod
    def items(detailed, kind):
        """The names of a list of this kind, with their directions and texts."""
        for item in detailed.findall(f".//parameterlist[@kind='{kind}']/parameteritem"):
            name = item.find("parameternamelist/parametername")
            yield text_of(name), name.get("direction", ""), text_of(item.find("parameterdescription"))

    def synopsis(self):
        written = f"{self.result} " if not self.result.endswith("*") else self.result
        yield f'.BI "{written}{self.name}(' + ("void" if not self.parameters else "")
        for at, (kind, name) in enumerate(self.parameters):
            before = ", " if at else ""
            kind = kind if kind.endswith("*") else f"{kind} "
            yield f'{before}{kind}" {name} "'
        yield ');"'

    def page(self, version):
        lines = [f'.TH {self.name} 3 "" "libquic_streams {version}" "libquic_streams"', ".SH NAME"]
        brief = self.brief.rstrip(".")
        lines += [escaped(f"{self.name} \0 {brief[:1].lower()}{brief[1:]}").replace("\0", "\\-"), ".SH SYNOPSIS", ".nf"]
        lines += [".B #include <quic_streams.h>", ".PP", "".join(self.synopsis()), ".fi", ".SH DESCRIPTION", escaped(self.brief)]
        for paragraph in self.paragraphs:
            lines += [".PP", escaped(paragraph)]
        if self.listed["param"]:
            lines.append(".SH PARAMETERS")
        for name, direction, text in self.listed["param"]:
            lines += [".TP", f".I {name}", escaped(f"({direction}) {text}" if direction else text)]
        if self.result != "void":
            lines.append(".SH RETURN VALUE")
        if self.returned:
            lines.append(escaped(self.returned))
        for name, _, text in self.listed["retval"]:
            lines += [".TP", f".B {name}", escaped(text)]
        if self.listed["retval"]:
            lines += [".PP", GENERAL]
        return "\n".join(lines + [".SH SEE ALSO", ".BR quic_streams.h (3)"]) + "\n"


def main():
    xml, man, version = sys.argv[1:]
    (path,) = glob.glob(os.path.join(xml, "*_8h.xml"))
    for member in ElementTree.parse(path).iter("memberdef"):
        if member.get("kind") == "function":
            call = Call(member)
            with open(os.path.join(man, f"{call.name}.3"), "w", encoding="utf-8") as file:
                file.write(call.page(version))


if __name__ == "__main__":
    main()
