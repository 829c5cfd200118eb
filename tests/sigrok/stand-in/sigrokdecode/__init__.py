'''A stand-in for the module that libsigrokdecode gives its decoders. It runs a decoder without sigrok, and raises Faulty where libsigrokdecode would refuse
what it is given, or would show something else than was meant.'''

OUTPUT_ANN = 0


class Faulty(Exception):
    pass


def hold(condition, what):
    if not condition:
        raise Faulty(what)


class Decoder:
    '''What decoders are derived from. What was put is in `got`: (first sample, last sample, id of the class, texts).'''

    def register(self, kind):
        hold(kind == OUTPUT_ANN, 'an output of another kind than annotations')
        self.registered = vars(self).get('registered', 0) + 1
        return self.registered - 1

    def put(self, ss, es, out, data):
        hold(type(ss) is int and type(es) is int and 0 <= ss <= es, f'samples {ss} to {es}')
        hold(type(out) is int and 0 <= out < vars(self).get('registered', 0), f'output {out} is not registered')
        hold(type(data) is list and len(data) == 2, f'{data} is no list of two')
        number, texts = data
        hold(type(number) is int and 0 <= number < len(self.annotations), f'there is no annotation class {number}')
        hold(type(texts) is list and len(texts) > 0, f'{texts} is no list of texts')
        for text in texts:
            hold(type(text) is str and text != '', f'{text!r} is no text to show')
        self.got.append((ss, es, self.annotations[number][0], texts))


def strings(values, kind):
    return type(values) is kind and all(type(value) is str and value != '' for value in values)


def check(made):
    '''What libsigrokdecode asks of a decoder's class when it loads it.'''
    hold(issubclass(made, Decoder), 'no Decoder of sigrokdecode')
    hold(made.api_version == 3, f'API version {made.api_version}')
    for name in ('id', 'name', 'longname', 'desc', 'license'):
        hold(strings([getattr(made, name)], list), f'{name} is no text')
    for name in ('inputs', 'outputs', 'tags'):
        hold(strings(getattr(made, name), list), f'{name} is no list of texts')
    for name in ('reset', 'start', 'decode'):
        hold(callable(getattr(made, name)), f'{name} is no method')
    hold(type(made.options) is tuple, 'options are no tuple')
    for option in made.options:
        hold(strings([option['id'], option['desc']], list), f'{option} has no id or no description')
        hold(type(option['values']) is tuple and option['default'] in option['values'], f'the default of {option} is none of its values')
    hold(type(made.annotations) is tuple and all(len(one) == 2 and strings(one, tuple) for one in made.annotations), 'annotations are no pairs of texts')
    ids = [one[0] for one in made.annotations] + [row[0] for row in made.annotation_rows]
    hold(len(set(ids)) == len(ids), 'two classes or rows have one id')
    shown = [number for row in made.annotation_rows for number in row[2]]
    hold(sorted(shown) == list(range(len(made.annotations))), 'a class stands in no row, or in two')


def started(made, **options):
    '''A decoder as libsigrokdecode makes and starts it, with these options; the others have their defaults.'''
    check(made)
    decoder = made()
    decoder.got = []
    decoder.options = {option['id']: option['default'] for option in made.options}
    for name, value in options.items():
        hold(name in decoder.options, f'there is no option {name}')
        hold(value in next(option['values'] for option in made.options if option['id'] == name), f'{name} can not be {value}')
        decoder.options[name] = value
    decoder.start()
    return decoder
