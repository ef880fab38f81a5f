// The peer of bench/json: reads a JSON text from standard input with RapidJSON, as a document with validated encoding and
// full precision, and prints it with its writer.
#include <cstdio>
#include <string>
#include <vector>
#include "rapidjson/document.h"
#include "rapidjson/stringbuffer.h"
#include "rapidjson/writer.h"

int main() {
    std::string text;
    std::vector<char> piece(1 << 16);
    for (size_t n; (n = fread(piece.data(), 1, piece.size(), stdin)) > 0;) text.append(piece.data(), n);
    rapidjson::Document document;
    document.Parse<rapidjson::kParseValidateEncodingFlag | rapidjson::kParseFullPrecisionFlag>(text.data(), text.size());
    if (document.HasParseError()) return 1;
    rapidjson::StringBuffer buffer;
    rapidjson::Writer<rapidjson::StringBuffer> writer(buffer);
    document.Accept(writer);
    fwrite(buffer.GetString(), 1, buffer.GetSize(), stdout);
    return 0;
}
