"""The page beside a file of products: what it was made of, and what became of the records. Parts that are joined by their pages."""
import hashlib
import json
import os
import stat
from collections import Counter

from .archive import REFUSALS, add_range
from .failure import Failure, failed, shown
from .files import Results, same_file
from .library import PRODUCT_BYTES, RECORD_BYTES

FORM = 1
BLOCK = 1 << 22


def sum_of(content):
    return hashlib.sha256(content).hexdigest()


def page_of(version, table, bias, archive, part, tally):
    """The page of a run. Table and bias file are pairs of a name and bytes."""
    number, of = part
    return {
        'form': FORM,
        'version': version,
        'table': {'name': table[0], 'sha256': sum_of(table[1])},
        'bias': {'name': bias[0], 'sha256': sum_of(bias[1])},
        'archive': [{'name': file.name, 'bytes': file.read, 'sha256': file.sum.hexdigest()} for file in archive.files],
        'part': {'number': number, 'of': of},
        'before': tally.began,
        'after': tally.ended,
        'records': tally.records,
        'products': {'number': tally.products, 'bytes': tally.products * PRODUCT_BYTES, 'sha256': tally.sum.hexdigest()},
        'refusals': {str(answer): tally.refusals[answer] for answer in sorted(tally.refusals)},
        'refused': tally.refused,
    }


def text_of(page):
    """A page as JSON: a line for each entry, and one for each range of refused records."""
    lines = []
    for name, value in page.items():
        if name == 'refused' and value:
            value = '[\n  ' + ',\n  '.join(map(json.dumps, value)) + ']'
        else:
            value = json.dumps(value)
        lines.append(f' {json.dumps(name)}: {value}')
    return ('{\n' + ',\n'.join(lines) + '\n}\n').encode('ascii')


SUM = {'name': str, 'sha256': str}
SHAPE = {
    'form': int, 'version': str, 'table': SUM, 'bias': SUM, 'archive': [{**SUM, 'bytes': int}], 'part': {'number': int, 'of': int},
    'before': [[int]], 'after': [[int]], 'records': int, 'products': {'number': int, 'bytes': int, 'sha256': str}, 'refusals': dict,
    'refused': [{'file': int, 'first': int, 'last': int, 'offset': int, 'number': int}],
}


def has_shape(value, shape):
    """Whether a value is of a kind, or has the entries of a shape with theirs, or is a list of such values."""
    if isinstance(shape, dict):
        return isinstance(value, dict) and value.keys() == shape.keys() and all(has_shape(value[name], shape[name]) for name in shape)
    if isinstance(shape, list):
        return isinstance(value, list) and all(has_shape(item, shape[0]) for item in value)
    return type(value) is shape


def agrees(page):
    """Whether the counts of a page and its ranges fit together."""
    refusals, products = Counter(), page['products']
    for own in page['refused']:
        if not (0 <= own['file'] < len(page['archive']) and 0 <= own['first'] <= own['last'] and own['number'] in REFUSALS
                and own['offset'] == own['first'] * RECORD_BYTES):
            return False
        refusals[str(own['number'])] += own['last'] - own['first'] + 1
    return (dict(refusals) == page['refusals'] and page['records'] == products['number'] + sum(refusals.values())
            and products['bytes'] == products['number'] * PRODUCT_BYTES and all(len(pair) == 2 for pair in page['before'] + page['after']))


def opened(name):
    """A file to read. What is no file may let a reader wait, or have no end."""
    file = open(name, 'rb', buffering=0, opener=lambda name, flags: os.open(name, flags | os.O_NONBLOCK))
    if not stat.S_ISREG(os.fstat(file.fileno()).st_mode):
        file.close()
        raise Failure(f'{shown(name)}: this is no file')
    return file


def read_page(products):
    """The page of a file of products."""
    name = products + '.json'
    try:
        with opened(name) as file:
            page = json.loads(file.read())
    except OSError as failure:
        raise failed(shown(name), failure) from None
    except (ValueError, RecursionError):
        page = None
    if not has_shape(page, SHAPE) or page['form'] != FORM or not agrees(page):
        raise Failure(f'{shown(name)}: this is no page of products')
    return page


def made_of(page):
    """What products were made of: the same of all parts of one archive."""
    return {
        'version': page['version'], 'table': page['table']['sha256'], 'bias file': page['bias']['sha256'],
        'archive': [(file['bytes'], file['sha256']) for file in page['archive']], 'number of parts': page['part']['of'],
    }


def blocks_of(name):
    """The bytes of a file, block by block."""
    try:
        with opened(name) as file:
            while block := file.read(BLOCK):
                yield block
    except OSError as failure:
        raise failed(shown(name), failure) from None


def sum_of_file(name):
    total = hashlib.sha256()
    for block in blocks_of(name):
        total.update(block)
    return total.hexdigest()


def whole_page(out, version, table, bias, files, part):
    """The page of products that are there already, whole, and made by this version of this table, bias file, archive and part; else
    None. The page is asked first, and then the bytes."""
    try:
        page = read_page(out)
        # What standard input has is not known before it is read, and a file may have the name -.
        sizes = [None if file.name == '-' else file.size() for file in files]
        asked = {'version': version, 'table': sum_of(table), 'bias file': sum_of(bias), 'number of parts': part[1]}
        given = made_of(page)
        if {**given, **asked} != given or page['part']['number'] != part[0] or [size for size, _ in given['archive']] != sizes:
            return None
        if os.path.getsize(out) != page['products']['bytes'] or sum_of_file(out) != page['products']['sha256']:
            return None
        if [sum_of_file(file.name) for file in files] != [total for _, total in given['archive']]:
            return None
    except (Failure, OSError):
        return None
    return page


def test_replaced(out):
    """Only results are replaced: products, an empty file, or a file that has a page of products. A raw archive that a pattern of the shell
    puts behind -o is left, and so is a page without products that is none."""
    if os.path.isfile(out) and not has_products(out):
        try:
            read_page(out)
        except Failure:
            raise Failure(f'{shown(out)}: there is a file that has no products and no page; it is left as it is') from None
    if os.path.isfile(out + '.json') and not os.path.lexists(out):
        read_page(out)


def has_products(name):
    """Whether a file has whole products, by its length and its first head."""
    from .formats import HEAD, PRODUCT
    try:
        with opened(name) as file:
            head, size = file.read(HEAD.size), os.fstat(file.fileno()).st_size
    except OSError as failure:
        raise failed(shown(name), failure) from None
    return size == 0 or (size % PRODUCT_BYTES == 0 and head == PRODUCT.fields[0].head)


def test_parts(names, pages):
    """Whether these are all parts, in order, of one archive, made of one table and one bias file by one version."""
    for name, page in zip(names, pages):
        for (what, value), first in zip(made_of(page).items(), made_of(pages[0]).values()):
            if value != first:
                raise Failure(f'{shown(name)}: its {what} is another than that of {shown(names[0])}')
    of, before = pages[0]['part']['of'], []
    for number, (name, page) in enumerate(zip(names, pages), 1):
        if page['part']['number'] != number:
            raise Failure(f'{shown(name)}: this is part {page["part"]["number"]} of {of}, and part {number} must stand here')
    if len(names) != of:
        raise Failure(f'{shown(names[-1])}: this is part {len(names)} of {of}, and none follows')
    for name, page in zip(names, pages):
        if page['before'] != before:
            raise Failure(f'{shown(name)}: it was made behind the accepted records {page["before"]}, and those before it are {before}')
        before = page['after']


def copied(name, page, results, total):
    """Copies the products of a part, which must be those that its page names."""
    own, size = hashlib.sha256(), 0
    for block in blocks_of(name):
        own.update(block)
        total.update(block)
        results.write(block)
        size += len(block)
    if (size, own.hexdigest()) != (page['products']['bytes'], page['products']['sha256']):
        raise Failure(f'{shown(name)}: its bytes are not those that its page names')


def join(names, out):
    """Joins the products of all parts of an archive, in order, to those of one run; answers their page."""
    pages = [read_page(name) for name in names]
    test_parts(names, pages)
    for name in (*names, *(name + '.json' for name in names)):
        if same_file(name, out) or same_file(name, out + '.json'):
            raise Failure(f'{shown(out)}: {shown(name)}, which is read, would be written over')
    test_replaced(out)
    results, total = Results(out), hashlib.sha256()
    for name, page in zip(names, pages):
        copied(name, page, results, total)
    whole = joined(pages, total.hexdigest())
    results.finish(text_of(whole))
    return whole


def joined(pages, products):
    """The page of all parts: that of one run."""
    refusals, refused = Counter(), []
    for page in pages:
        refusals.update(page['refusals'])
        for own in page['refused']:
            add_range(refused, own)
    number = sum(page['products']['number'] for page in pages)
    return {
        **pages[0],
        'part': {'number': 1, 'of': 1},
        'after': pages[-1]['after'],
        'records': sum(page['records'] for page in pages),
        'products': {'number': number, 'bytes': number * PRODUCT_BYTES, 'sha256': products},
        'refusals': {answer: refusals[answer] for answer in sorted(refusals, key=int)},
        'refused': refused,
    }


def counts(page):
    """The line of counts."""
    refusals = page['refusals']
    total = sum(refusals.values())
    by_number = ', '.join(f'{count} with {answer}' for answer, count in refusals.items())
    return f'records {page["records"]} products {page["products"]["number"]} refused {total}' + (f': {by_number}' if total else '')
