"""Makes a PDF of a PNG or JPEG, or a PNG of one page of a fax. It runs in the sandbox of documents.py, with Debian's
python3-pil.

    picture.py FILE PDF
    picture.py --page N TIFF PNG
"""
import sys

from PIL import Image, ImageOps

PAGE = 1654, 2339  # the dots of A4 at 200 to an inch


def on_page(picture):
    """The picture in gray on white paper, as large as fits, upright or on its side as it is."""
    picture = ImageOps.exif_transpose(picture)
    if picture.mode in ("RGBA", "LA", "P"):
        picture = picture.convert("RGBA")
        paper = Image.new("RGBA", picture.size, "white")
        paper.alpha_composite(picture)
        picture = paper
    picture = picture.convert("L")
    room = PAGE if picture.width <= picture.height else PAGE[::-1]
    picture.thumbnail(room, Image.Resampling.LANCZOS)
    page = Image.new("L", room, "white")
    page.paste(picture, ((room[0] - picture.width) // 2, (room[1] - picture.height) // 2))
    return page


def page_of(fax, number):
    """A page of a fax with square dots."""
    fax.seek(number - 1)
    across, down = (float(value) for value in fax.info.get("dpi", (204, 196)))
    size = fax.width // 2, round(fax.height * across / down / 2)
    return fax.convert("L").resize(size, Image.Resampling.BOX)


def main(words):
    if words[0] == "--page":
        with Image.open(words[2]) as fax:
            page_of(fax, int(words[1])).save(words[3], "PNG")
    else:
        with Image.open(words[0], formats=("PNG", "JPEG")) as picture:
            on_page(picture).save(words[1], "PDF", resolution=200)


main(sys.argv[1:])
