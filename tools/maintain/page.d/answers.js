/* Answers jobs with a module, where node runs this behind page/module.js: node FILE MODULE JOBS ANSWERS. A job is [name, texts in base64, options],
 * its answer [status, printed, said]; a capture comes in small pieces. */
import { readFileSync, writeFileSync } from "node:fs";

const [, , path, jobs, answers] = process.argv;
const lagtool = await Lagtool.of(readFileSync(path));

function answerOf([name, words, options]) {
    const given = words.map((it) => new Uint8Array(Buffer.from(it, "base64")));
    return name === "capture" ? allOf(explained(lagtool.module, given[0], numbersOf(options), 997)) : lagtool.now(name, ...given);
}

const told = JSON.parse(readFileSync(jobs)).map((it) => {
    try {
        const { status, printed, said } = answerOf(it);
        return [status, printed, said];
    } catch (error) {
        return [null, "", error.message];
    }
});
writeFileSync(answers, JSON.stringify(told));
