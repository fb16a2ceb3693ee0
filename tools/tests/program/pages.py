"""Pages of HTML that the program writes, as they are read: each is well-formed XML too."""

import xml.parsers.expat


class Page:
    """A page of HTML: whether it is well-formed XML, its elements' names and ids, where its links lead, and its text."""

    def __init__(self, page):
        self.names, self.ids, self.links, texts = set(), [], set(), []
        parser = xml.parsers.expat.ParserCreate("utf-8")
        parser.buffer_text = True
        parser.StartElementHandler, parser.CharacterDataHandler = self.note, texts.append
        self.is_well = True
        try:
            parser.Parse(page.encode(), True)
        except xml.parsers.expat.ExpatError:
            self.is_well = False
        self.text = "".join(texts)

    def note(self, name, attributes):
        self.names.add(name)
        self.ids += [attributes["id"]] if "id" in attributes else []
        self.links |= {attributes["href"]} if "href" in attributes else set()

    def leads_within(self):
        """Each id stands once, and each link leads to one."""
        return len(set(self.ids)) == len(self.ids) and self.links <= {f"#{it}" for it in self.ids}


def page_of(suite, what, words, status, **how):
    """The page that the program writes, which is well formed, leads nowhere else, and runs nothing."""
    output, told, ended = suite.run(words, **how)
    page = Page(output.decode(errors="replace"))
    suite.is_true(f"{what}: its end", (told, ended) == (b"", status))
    suite.is_true(f"{what}: its elements", page.is_well and not page.names & {"script", "img", "link", "object"})
    suite.is_true(f"{what}: its links", page.leads_within())
    return output, page


def is_xml(content):
    """Whether bytes are well-formed XML, in UTF-8."""
    try:
        xml.parsers.expat.ParserCreate().Parse(content, True)
    except xml.parsers.expat.ExpatError:
        return False
    return True
