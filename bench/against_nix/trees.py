"""The trees that nix-tree prints."""
import json


class Node:
    """An element of a tree, with its place in the bytes of the text."""

    def __init__(self, kind, start, end, parent, text):
        self.kind, self.start, self.end, self.parent, self.children = kind, start, end, parent, []
        self.text = text[start:end].decode()

    def below(self):
        for child in self.children:
            yield child
            yield from child.below()

    def above(self):
        node = self.parent
        while node is not None:
            yield node
            node = node.parent

    def nodes(self):
        return [it for it in self.children if it.kind.startswith("NODE_")]

    def child(self, *kinds):
        return next((it for it in self.children if it.kind in kinds), None)


def tree_of(printed, text):
    """The root of the tree that `nix-tree --json` prints of a text, and the errors."""
    said = json.loads(printed)
    around, root = [], None
    for it in said["elements"]:
        del around[it["depth"] :]
        node = Node(it["kind"], it["start"], it["end"], around[-1] if around else None, text)
        root = root or node
        if around:
            around[-1].children.append(node)
        around.append(node)
    return root, said["errors"]


def trees(programs, texts):
    """The trees of texts with their errors, or nothing where there is no tree."""
    found = programs.run_all("tree", [(["--json"], text) for text in texts])
    return [tree_of(ran.out, text.encode()) if ran.status < 2 else (None, None) for ran, text in zip(found, texts)]
