"""Pages in the browser: what each shows at its places, compared with what `debug` prints, and where it leads."""

import glob
import json
import os
import subprocess

import formats

TOP = os.path.dirname(os.path.dirname(os.path.dirname(os.path.dirname(os.path.abspath(__file__)))))

# seconds that a run has
LONGEST = 60

# guests are recorded for so many turns a rank, but those whose run is longer and is worth its whole page
TURNS = 2_000
WHOLE = ("stencil.s", "halo.s")

# at so many places forwards, and as many back
PLACES = 20

# pages of which pictures are left: a guest, and its place
PICTURED = {"quotient": 40, "ring": 300, "both_receive_first": 10**9, "halo": 2_000, "share": 3_720}

# what the page shows of all harts, of 64 bytes of each rank at these addresses, and of the outputs
SHOWN = """(addresses => {
  const text = name => document.getElementById("page-" + name).innerText;
  const all = {place: +document.getElementById("page-place").value, harts: [], memory: {}, outputs: {}};
  const address = document.getElementById("page-address");
  for (let n = 0; n < document.querySelectorAll("#page-harts button").length; n++) {
    const line = document.querySelectorAll("#page-harts button")[n];
    line.click();
    const chosen = document.querySelector("#page-harts .chosen").textContent
      .replace(/ [(][^)]*[)]/, "").replace(/ at .* .(0x[0-9a-f]+).$/, " at $1");
    const registers = [...document.querySelectorAll("#page-registers>span")].map(
        one => one.children[1].textContent.trim() + " " + one.textContent.slice(-16));
    all.harts.push([chosen, registers, text("whose")]);
    for (const one of addresses) {
      address.value = one;
      address.dispatchEvent(new Event("change"));
      all.memory[/rank \\d/.exec(chosen)[0] + " " + one] =
          [...document.querySelectorAll("#page-memory span")].map(one => one.textContent).join(" ");
    }
  }
  const outputs = document.getElementById("page-outputs").children;
  for (let n = 0; n < outputs.length; n += 2) all.outputs[outputs[n].textContent] = outputs[n + 1].textContent;
  return JSON.stringify(all);
})(%s)"""

# the texts of the picture that its pane's edges cut
CUT = """JSON.stringify([...document.querySelectorAll("#page-picture svg text")].filter(text => {
  const own = text.getBoundingClientRect(), pane = document.getElementById("page-picture");
  const left = pane.getBoundingClientRect().left;
  return own.width > 0 && (own.left < left - 1 || own.right > left + pane.clientWidth + 1);
}).map(text => text.textContent))"""

# goes to a place
GO = """(place => {
  const input = document.getElementById("page-place");
  input.value = place;
  input.dispatchEvent(new Event("change"));
})(%d)"""

# goes to a place by the address, and waits until the page has heard of it
HASH = """new Promise(done => {
  addEventListener("hashchange", () => setTimeout(done, 0), {once: true});
  setTimeout(done, 3000);
  location.hash = "#%d";
})"""


def element(name):
    """An element of the page, by the end of its name."""
    return f"document.getElementById('page-{name}')"


def pick(count, first, last):
    """So many places from one to another, both among them."""
    return sorted({first + (last - first) * n // (count - 1) for n in range(count)})


class Front:
    """What `debug` told, taken from its front."""

    def __init__(self, text):
        self.text, self.at = text, 0

    def line(self):
        """The next line."""
        end = self.text.index(b"\n", self.at)
        line = self.text[self.at : end].decode()
        self.at = end + 1
        return line

    def output(self, outputs, rank):
        """Adds the output of a rank, if there is one, as printed letters and newlines."""
        count = int(self.line().split()[3])
        text = self.text[self.at : self.at + count]
        self.at += count + 1
        if count:
            letters = "".join(chr(byte) if 32 <= byte <= 126 or byte == 10 else "." for byte in text)
            outputs[f"rank {rank}, {count} bytes"] = letters

    def place(self, image, addresses):
        """A place: each hart with its registers, memory at these addresses, and the outputs."""
        place = {"place": int(self.line().split()[1]), "harts": [], "memory": {}, "outputs": {}}
        for rank in range(image.ranks):
            for hart in range(image.harts):
                line = self.line()
                place["harts"].append([line, [self.line() for _ in range(32)], f"rank {rank} hart {hart}"])
            for address in addresses:
                place["memory"][f"rank {rank} {address}"] = " ".join(self.line().strip() for _ in range(4))
            self.output(place["outputs"], rank)
        return place


class Pages:
    """The program and the browser, and what was shown otherwise than expected."""

    def __init__(self, program):
        self.program, self.browser, self.folder = program, None, None
        self.walked = self.places = self.deeds = 0
        # a folder for pictures, and a program whose pages are to be the same
        self.pictures = self.like = None
        self.wrong = []

    def told(self, words, given):
        """Runs the program on words and an input, and returns its status and both texts."""
        done = subprocess.run([self.program, *words], input=given, capture_output=True, check=False, timeout=LONGEST)
        return done.returncode, done.stdout, done.stderr

    def expect(self, name, told, expected):
        """Notes what was shown otherwise."""
        self.deeds += 1
        if told != expected:
            self.wrong.append(f"{name}: {str(told)[:400]}, not {str(expected)[:400]}")

    def debugged(self, record, image, places):
        """What `debug` tells at each of these places, as the page is to show it, and the addresses of the memory."""
        addresses = [image.data_at() if image.data_at() + 64 <= image.memory else 0, image.memory - 64]
        words = ["debug"]
        for place in places:
            words.append(f"go={place}")
            for rank in range(image.ranks):
                words += [f"regs={rank},{hart}" for hart in range(image.harts)]
                words += [f"bytes={rank},{address},64" for address in addresses]
                words.append(f"output={rank}")
        status, text, fault = self.told(words, record)
        if status != 0:
            raise ValueError(f"debug: {fault}")
        front = Front(text)
        return [front.place(image, addresses) for _ in places], addresses

    def expect_place(self, name, shown, expected):
        """Expects what the page shows at a place."""
        self.places += 1
        for what in expected:
            self.expect(f"{name}: {what}", shown[what], expected[what])

    def expect_walk(self, name, record, words=(), first=0, last=None):
        """Expects the page of a record, or of a part of it, to show what `debug` tells, forwards and back."""
        image, steps = formats.read_record(record)
        last = len(steps) if last is None else last
        status, page, fault = self.told(["page", *words], record)
        self.expect(f"{name}: status", (status, fault), (0, b""))
        if status:
            return
        self.walked += 1
        if self.like:
            words = [self.like, "page", *words]
            other = subprocess.run(words, input=record, capture_output=True, check=False, timeout=LONGEST).stdout
            self.expect(f"{name}: the same page", page == other, True)
            return
        self.open(page)
        places = pick(PLACES, first, last)
        expected, addresses = self.debugged(record, image, places)
        for back in (False, True):
            if back:
                self.browser.value(GO % last)
            for place, machine in list(zip(places, expected))[:: -1 if back else 1]:
                self.browser.value(GO % place)
                shown = json.loads(self.browser.value(SHOWN % addresses))
                self.expect_place(f"{name} {place}", shown, machine)
        self.expect_deeds(name, steps, first, last)
        self.expect_uncut(name)
        self.leave_pictures(name)
        self.expect(f"{name}: console", self.browser.told(), [])

    def expect_guests(self, only=None):
        """Expects the pages of the examples and of the guests of tests/guests, or of one of them."""
        for path in sorted(glob.glob(f"{TOP}/examples/*.s") + glob.glob(f"{TOP}/tests/guests/*.s")):
            if only in (None, os.path.basename(path)):
                self.expect_guest(path)

    def expect_guest(self, path):
        """Expects the page of a guest's record."""
        name = os.path.basename(path)
        with open(path, "rb") as file:
            given = file.read()
        if b"# behind:" in given:
            return
        words = ["one", "--source", "--record", *([] if name in WHOLE else ["--budget", str(TURNS)])]
        status, record, _ = self.told(words, given)
        if status in (1, 2):
            return
        stuck = self.told([*words, "--until-stuck"], given)
        if stuck[0] == 0 and stuck[1] != record:
            record = stuck[1]
        self.expect_walk(name, record)
        count = len(formats.read_record(record)[1])
        if count > 100 and name in WHOLE:
            first, last = count // 3, count // 2
            words = ["--from", str(first), "--to", str(last)]
            self.expect_walk(f"{name} {first} to {last}", record, words, first, last)

    def tell(self):
        """Tells what was shown otherwise, and the status that this comes to."""
        for line in self.wrong[:20]:
            print(line)
        if not self.deeds:
            print("tests/checks/page: there is no such part, and no such guest")
        done = f"{self.walked} pages, {self.places} places, {self.deeds} comparisons"
        print(f"tests/checks/page: {done}, {len(self.wrong)} otherwise than expected")
        return 1 if self.wrong or not self.deeds else 0

    def place(self):
        """The place that the page shows."""
        return self.browser.value("+document.getElementById('page-place').value")

    def expect_deeds(self, name, steps, first, last):
        """Expects keys, clicks, and a place in the address to lead where they should."""
        marks = "[...document.querySelectorAll('g[id^=step]')].map(one => +one.id.slice(4))"
        marks = json.loads(self.browser.value(f"JSON.stringify({marks})"))
        for key, shift, expected in (
            ("End", False, last), ("Home", False, first), ("ArrowRight", False, min(last, first + 1)),
            ("ArrowLeft", False, first), ("ArrowLeft", False, first),
        ):
            self.browser.press(key, shift)
            self.expect(f"{name}: {key}", self.place(), expected)
        for mark in marks[:3]:
            self.browser.press("ArrowRight", True)
            self.expect(f"{name}: to the next mark", self.place(), mark + 1)
        for mark in marks[:3][-2::-1]:
            self.browser.press("ArrowLeft", True)
            self.expect(f"{name}: to the last mark", self.place(), mark + 1)
        for mark in [marks[len(marks) // 2], marks[-1]] if marks else []:
            self.browser.click(f"document.querySelector('#step{mark}>use:last-of-type')")
            self.expect(f"{name}: a click on step {mark}", self.place(), mark + 1)
            whose = self.browser.value("document.getElementById('page-whose').textContent")
            self.expect(f"{name}: whose step", whose, f"rank {steps[mark].rank} hart {steps[mark].hart}")
        middle = (first + last) // 2
        self.browser.value(HASH % middle)
        self.expect(f"{name}: a place in the address", self.place(), middle)
        self.browser.click("document.getElementById('page-end')")
        self.expect(f"{name}: the button of the end", self.place(), last)

    def expect_uncut(self, name):
        """Expects no edge of the picture to cut a text, on wide pages and on narrow ones."""
        for width in (1350, 1000, 720):
            self.browser.sized(width)
            self.expect(f"{name}: cut at {width}", json.loads(self.browser.value(CUT)), [])
        self.browser.ask("Emulation.clearDeviceMetricsOverride")

    def leave_pictures(self, name):
        """Leaves pictures of the page, if it is one of those."""
        place = PICTURED.get(name.partition(".")[0])
        if self.pictures is None or place is None:
            return
        self.browser.value(GO % place)
        for kind, width, height in (("light", 1350, 900), ("dark", 1350, 900), ("narrow", 400, 860)):
            self.browser.picture(f"{self.pictures}/{name}-{kind}.png", width, height)

    def open(self, page, place=""):
        """Opens a page in the browser, at its first place or at another one."""
        with open(f"{self.folder}/page.html", "wb") as file:
            file.write(page)
        self.browser.open(f"file://{self.folder}/page.html{place and '#'}{place}")

    def open_record(self, record, place, texts=()):
        """Opens the page of a record, with these sources, at a place."""
        words = [word for name, text in texts for word in ("--text", f"{name}={len(text)}")]
        self.open(self.told(["page", *words], record + b"".join(text for _, text in texts))[1], str(place))

    def leave_picture(self, name):
        """Leaves the picture of a page that docs/ show."""
        if self.pictures:
            self.browser.value(f"{element('machine')}.scrollTop = 0")
            self.browser.picture(f"{self.pictures}/{name}.png", 1350, 820)
