// The page: a question of two stops and a time, and its answer as a list and on a map.
import { health, plan, settings } from "./asking.js";
import { fill } from "./journeys.js";
import { JourneyMap } from "./map.js";
import { StopField } from "./stops.js";

const PROGRESS_PAUSE = 3_000;
const TRIES = 20;
const by = (id) => document.getElementById(id);
const wait = (seconds) => new Promise((resolve) => { setTimeout(resolve, seconds * 1_000); });

class Page {
    constructor(given) {
        this.from = new StopField(by("from"), by("from-stops"), by("from-note"));
        this.to = new StopField(by("to"), by("to-stops"), by("to-note"));
        this.map = new JourneyMap(by("map"), by("map-note"), given);
        this.asking = null;
        this.covered = "";
        by("question").addEventListener("submit", (event) => {
            event.preventDefault();
            this.ask();
        });
        by("question").addEventListener("input", () => this.leave());
        by("swap").addEventListener("click", () => this.swap());
    }

    // Gives up a question that is still asked, since its fields have changed.
    leave() {
        if (!this.asking) return;
        this.asking.abort();
        this.asking = null;
        by("outcome").textContent = "The question has changed.";
    }

    swap() {
        this.leave();
        const [from, to] = [this.from, this.to];
        [from.stop, to.stop] = [to.stop, from.stop];
        [from.input.value, to.input.value] = [to.input.value, from.input.value];
        from.say("");
        to.say("");
    }

    // The question that the fields have; null if one of them lacks something, which the note under it says.
    async question() {
        const [from, to] = [await this.from.chosen(), await this.to.chosen()];
        const when = by("when");
        const time = when.value.length === 16 ? `${when.value}:00` : when.value;
        by("when-note").textContent = time ? this.covered : "Choose a day and a time.";
        if (!to) this.to.refuse();
        if (!from) this.from.refuse();
        if (from && to && !time) when.focus();
        return from && to && time ? { from, to, time } : null;
    }

    async ask() {
        if (this.asking) this.asking.abort();
        this.asking = new AbortController();
        const { signal } = this.asking;
        this.refuse("");
        try {
            const question = await this.question();
            signal.throwIfAborted();
            if (question) this.show(question.time, await this.answer(question, signal));
        } catch (error) {
            if (signal.aborted) return;
            this.fail(error);
        }
        this.asking = null;
    }

    // The answer. While trees are computed it is asked again, as often as the planner says.
    async answer({ from, to, time }, signal) {
        for (let tries = 1; ; tries += 1) {
            try {
                return await plan(from.id, to.id, time, signal);
            } catch (error) {
                if (!error.retry || tries === TRIES) throw error;
                this.clear(`Not ready yet: ${error.message}. The planner is asked again in ${error.retry} s.`);
                await wait(error.retry);
                signal.throwIfAborted();
            }
        }
    }

    // The question that the page's address holds, if it holds one.
    async askAddress() {
        const held = new URLSearchParams(window.location.search);
        const [from, to, time] = [held.get("fromPlace"), held.get("toPlace"), held.get("time")];
        if (!from || !to || !time) return;
        this.from.choose({ id: from, name: from });
        this.to.choose({ id: to, name: to });
        by("when").value = time.slice(0, 16);
        await this.ask();
    }

    show(time, answer) {
        const { from, to } = answer;
        this.from.choose({ id: from.stopId, name: from.name });
        this.to.choose({ id: to.stopId, name: to.name });
        const held = new URLSearchParams({ fromPlace: from.stopId, toPlace: to.stopId, time });
        window.history.replaceState(null, "", `?${held}`);
        const journeys = [...answer.direct, ...answer.itineraries];
        const count = journeys.length === 1 ? "1 journey" : `${journeys.length || "No"} journeys`;
        this.clear(`${count} from ${from.name} to ${to.name}, at ${time.slice(11, 16)} on ${time.slice(0, 10)} or later.`);
        fill(by("journeys"), journeys, time, (journey) => this.map.show(journey, from, to));
        by("results").focus({ preventScroll: true });
    }

    clear(text) {
        by("outcome").textContent = text;
        by("journeys").replaceChildren();
        this.map.clear();
    }

    fail(error) {
        this.clear("No answer.");
        const cause = error.status ? `The planner refused the question: ${error.message}.` : `There is no answer, since ${error.message}.`;
        this.refuse(cause + (error.stopId ? ` The stop is ${error.stopId}.` : ""));
    }

    refuse(text) {
        by("refused").textContent = text;
        by("refused").hidden = !text;
    }

    // Sets the field of the time to now, if the planner covers this day, and to a morning that it covers if not.
    setWhen({ firstDate, lastDate, now }) {
        const when = by("when");
        const today = now.slice(0, 10);
        when.min = `${firstDate}T00:00`;
        when.max = `${lastDate}T23:59`;
        if (!when.value) when.value = firstDate <= today && today <= lastDate ? now.slice(0, 16) : `${firstDate}T08:00`;
        this.covered = firstDate === lastDate
            ? `The day ${firstDate} is covered.` : `The days from ${firstDate} to ${lastDate} are covered.`;
        by("when-note").textContent = this.covered;
    }
}

// Shows how many trees are stored until all are, and sets the time at the first reply.
const followProgress = async (page) => {
    for (let isSet = false; ;) {
        const state = await health().catch(() => ({}));
        if (!isSet && state.now) {
            page.setWhen(state);
            isSet = true;
        }
        const isWhole = state.status === "ok" && state.stored === state.stops;
        by("progress").textContent = isWhole ? "" : state.status === "ok"
            ? `Journeys from ${state.stored} of ${state.stops} stops are ready; the others are being computed.`
            : "The planner is starting.";
        if (isWhole) return;
        await wait(PROGRESS_PAUSE / 1_000);
    }
};

const page = new Page(await settings().catch(() => ({})));
followProgress(page);
await page.askAddress();
