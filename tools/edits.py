"""The form of an edit: `file: NAME`, and then pairs of `old: TEXT`, which stands exactly once there, after the pairs before it, and `new: TEXT`."""


def edited(lines, folder):
    """Why an edit of the folder's files cannot be applied, and their texts as it makes them."""
    texts, name, old = {}, "", ""
    for line in lines:
        if line.startswith("file: "):
            name = line[len("file: ") :]
        elif line.startswith("old: "):
            old = line[len("old: ") :]
        elif line.startswith("new:"):
            if name not in texts and not (folder / name).is_file():
                return f"there is no {name}", {}
            text = texts.get(name) or (folder / name).read_text()
            if not old or text.count(old) != 1:
                return f"'{old}' is {'more than once' if old and old in text else 'not'} in {name}", {}
            texts[name], old = text.replace(old, line[len("new:") :].removeprefix(" ")), ""
    return None if texts else "it has no 'old:' and 'new:' pair", texts
