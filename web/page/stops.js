// A text field that suggests stops by name as one types: a combobox with a list, as the ARIA practices have it.
import { geocode } from "./asking.js";

const PAUSE = 150;

export class StopField {
    constructor(input, list, note) {
        this.input = input;
        this.list = list;
        this.note = note;
        this.stop = null;
        this.found = [];
        this.at = -1;
        this.asking = null;
        input.addEventListener("input", () => this.type());
        input.addEventListener("keydown", (event) => this.press(event));
        input.addEventListener("blur", () => this.close());
        list.addEventListener("mousedown", (event) => event.preventDefault());
        list.addEventListener("click", (event) => this.click(event));
    }

    // The stop that is chosen; if none is, the one that is asked for by its name or id, or the only one that is found.
    async chosen() {
        clearTimeout(this.timer);
        if (this.stop) return this.stop;
        const text = this.input.value.trim();
        if (!text) return null;
        const found = await geocode(text);
        const same = found.filter((stop) => stop.id === text || stop.name.toLowerCase() === text.toLowerCase());
        const stop = found.find((it) => it.id === text) || (same.length === 1 ? same[0] : found.length === 1 ? found[0] : null);
        if (stop) this.choose(stop);
        return stop;
    }

    choose(stop) {
        this.stop = stop;
        this.input.value = stop.name;
        this.say("");
        this.close();
    }

    say(text) {
        this.note.textContent = text;
        this.input.removeAttribute("aria-invalid");
    }

    // Says that no stop is chosen, and what to do.
    refuse() {
        this.note.textContent = this.input.value ? "Choose one of the stops that are suggested." : "Type a part of a stop's name.";
        this.input.setAttribute("aria-invalid", "true");
        this.input.focus();
    }

    type() {
        this.stop = null;
        this.say("");
        clearTimeout(this.timer);
        this.timer = setTimeout(() => this.suggest(), PAUSE);
    }

    async suggest() {
        const text = this.input.value.trim();
        if (this.asking) this.asking.abort();
        if (!text) return this.close();
        this.asking = new AbortController();
        try {
            this.show(await geocode(text, this.asking.signal));
        } catch (error) {
            if (error.name !== "AbortError") this.say(error.message);
        }
    }

    show(found) {
        if (document.activeElement !== this.input) return;
        this.found = found;
        this.list.replaceChildren(...found.map((stop, place) => this.option(stop, place)));
        const count = found.length === 1 ? "1 stop" : `${found.length || "No"} stops`;
        this.say(found.length ? `${count} found; the arrow keys choose.` : "No stop has this in its name or id.");
        this.list.hidden = !found.length;
        this.input.setAttribute("aria-expanded", String(Boolean(found.length)));
        this.mark(-1);
    }

    option(stop, place) {
        const item = document.createElement("li");
        item.id = `${this.list.id}-${place}`;
        item.setAttribute("role", "option");
        item.setAttribute("aria-selected", "false");
        item.append(stop.name);
        if (stop.name !== stop.id) {
            const id = document.createElement("span");
            id.className = "id";
            id.textContent = ` ${stop.id}`;
            item.append(id);
        }
        return item;
    }

    mark(place) {
        this.at = place;
        [...this.list.children].forEach((item, number) => item.setAttribute("aria-selected", String(number === place)));
        if (place < 0) return this.input.removeAttribute("aria-activedescendant");
        this.input.setAttribute("aria-activedescendant", this.list.children[place].id);
        this.list.children[place].scrollIntoView({ block: "nearest" });
    }

    press(event) {
        const count = this.list.hidden ? 0 : this.found.length;
        if (event.key === "Escape") this.close();
        else if (event.key === "ArrowDown" && !count) this.suggest();
        else if (event.key === "ArrowDown") this.mark((this.at + 1) % count);
        else if (event.key === "ArrowUp" && count) this.mark((this.at <= 0 ? count : this.at) - 1);
        else if (event.key === "Enter" && count && this.at >= 0) this.choose(this.found[this.at]);
        else return;
        event.preventDefault();
    }

    click(event) {
        const item = event.target.closest("[role=option]");
        if (item) this.choose(this.found[[...this.list.children].indexOf(item)]);
    }

    close() {
        clearTimeout(this.timer);
        if (this.asking) this.asking.abort();
        this.list.hidden = true;
        this.input.setAttribute("aria-expanded", "false");
        this.mark(-1);
        if (!this.input.hasAttribute("aria-invalid")) this.note.textContent = "";
    }
}
