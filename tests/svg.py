"""The pictures of tools/pictures.py, as others read them."""
import xml.etree.ElementTree

BAR = '{http://www.w3.org/2000/svg}rect[@class="mass"]'


def read(text):
    """A picture, which has to be well formed."""
    return xml.etree.ElementTree.fromstring(text)


def bars(picture):
    """How many bars of masses it has."""
    return len(picture.findall(BAR))


def texts(picture):
    return [it.text for it in picture.iter()]
