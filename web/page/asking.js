// Requests to the gateway, and what a refusal is.

class Refusal extends Error {
    constructor(status, body, retry) {
        super(body.error || `the answer has status ${status}`);
        this.status = status;
        this.name = body.name || "Unknown";
        this.stopId = body.stopId;
        this.retry = retry;
    }
}

const read = async (response) => {
    try {
        return await response.json();
    } catch {
        return {};
    }
};

// The JSON at an address of the interface; a Refusal if there is none.
const get = async (path, parameters = {}, signal = undefined) => {
    const query = new URLSearchParams(parameters);
    let response;
    try {
        response = await fetch(`${path}?${query}`, { signal, headers: { Accept: "application/json" } });
    } catch (error) {
        if (error.name === "AbortError") throw error;
        throw new Refusal(0, { error: "the planner can't be reached", name: "NoNetwork" }, 5);
    }
    const body = await read(response);
    if (!response.ok) throw new Refusal(response.status, body, Number(response.headers.get("Retry-After")) || undefined);
    return body;
};

export const plan = (from, to, time, signal) => get("api/v1/plan", { fromPlace: from, toPlace: to, time }, signal);
export const geocode = (text, signal) => get("api/v1/geocode", { text }, signal);
// The health has a body whether or not the planner is ready.
export const health = async () => read(await fetch("api/v1/health"));
export const settings = () => get("settings.json");
