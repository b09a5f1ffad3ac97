#!/usr/bin/env escript
%% What Erlang's Diameter finds in messages of the base protocol and of Gx (OTP's application diameter, RFC 6733, a
%% mandatory AVP that isn't known refused):
%%
%%     diameterc gx.dia && erlc gx.erl
%%     escript judge.escript FILE
%%
%% FILE has one message a line, in hexadecimal. For each a line is printed: its command, and `good`, or each fault as
%% RESULT-CODE:AVP:VENDOR, of the outermost AVP, or as RESULT-CODE alone.
-include_lib("diameter/include/diameter.hrl").

main([File]) ->
    code:add_path("."),
    {ok, Text} = file:read_file(File),
    [io:format("~s~n", [judged(octets(Line))]) || Line <- binary:split(Text, <<"\n">>, [global, trim_all])].

judged(<<_:34, Error:1, _:5, Command:24, Application:32, _/binary>> = Message) ->
    Options = #{decode_format => list, string_decode => false, strict_mbit => true, rfc => 6733},
    Packet = diameter_codec:decode(dictionary(Error, Application), Options, Message),
    io_lib:format("~b ~s", [Command, told(Packet#diameter_packet.errors)]).

%% An answer with the E bit is one of the base protocol, whatever it answers.
dictionary(0, 16777238) -> gx;
dictionary(_, _) -> diameter_gen_base_rfc6733.

told([]) -> "good";
told({Code, _} = Fault) when is_integer(Code) -> fault(Fault);
told(Faults) -> lists:join(" ", [fault(Fault) || Fault <- Faults]).

fault({Code, [Avp | _]}) -> fault({Code, Avp});
fault({Code, #diameter_avp{code = Avp, vendor_id = undefined}}) -> io_lib:format("~b:~b:0", [Code, Avp]);
fault({Code, #diameter_avp{code = Avp, vendor_id = Vendor}}) -> io_lib:format("~b:~b:~b", [Code, Avp, Vendor]);
fault({Code, Other}) -> io_lib:format("~b:~0p", [Code, Other]);
fault(Code) -> io_lib:format("~b", [Code]).

octets(Line) ->
    << <<(binary_to_integer(Octet, 16))>> || <<Octet:2/binary>> <= Line >>.
