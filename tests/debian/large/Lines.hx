// A tree of a million nodes and maps that stay, beside eight threads with trees, maps, strings and exceptions.
class Tree {
	public var left:Tree;
	public var right:Tree;
	public var number:Int;

	public function new(depth:Int, number:Int) {
		this.number = number;
		if (depth > 0) {
			left = new Tree(depth - 1, (2 * number) & 0xFFFFFF);
			right = new Tree(depth - 1, (2 * number + 1) & 0xFFFFFF);
		}
	}

	public function sum():Int
		return (left == null ? 0 : left.sum()) + number % 7 + (right == null ? 0 : right.sum());
}

class Lines {
	static function words(count:Int):haxe.ds.StringMap<Array<Int>> {
		var table = new haxe.ds.StringMap<Array<Int>>();
		for (k in 0...count) {
			var name = "word" + (k % 997);
			if (!table.exists(name)) table.set(name, []);
			table.get(name).push(k);
		}
		return table;
	}

	static function work(first:Int):Int {
		var sum = 0;
		var kept = new Tree(14, first);
		for (k in 0...60) {
			sum += new Tree(12, first + k).sum();
			for (numbers in words(2000)) sum += numbers.length;
			try {
				if (k % 3 == 0) throw "thrown " + k;
			} catch (text:String) {
				sum += text.length;
			}
			sum += haxe.Json.stringify({numbers: [for (n in 0...k * 10) n], text: "t" + k}).length;
		}
		return (sum + kept.sum()) & 0xFFFFFF;
	}

	static function main() {
		var kept = new Tree(19, 1);
		var tables = [for (k in 0...40) words(10000)];
		var answers = new sys.thread.Deque<String>();
		for (number in 0...8)
			sys.thread.Thread.create(() -> answers.add(number + " " + work(number)));
		var lines = [for (_ in 0...8) answers.pop(true)];
		lines.sort(Reflect.compare);
		for (line in lines) Sys.println(line);
		Sys.println(kept.sum());
		for (table in tables) Sys.println([for (name in table.keys()) table.get(name).length].length);
	}
}
